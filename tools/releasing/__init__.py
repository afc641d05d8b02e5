"""What a release holds, and how it is made. tools/release writes one, and tools/try-release tries it."""
