"""The tests that are beside what they test, in the form of their language: those of the server in Go, and of each client."""
