"""What several tests use: counting checks, starting programs, the calls of the library for C, and small files with what is known of them."""
