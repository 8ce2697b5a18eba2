"""The tests of hostile_test, by what they take from a server."""
