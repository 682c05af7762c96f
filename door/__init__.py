"""The operator's commands: words, files, signals and statuses around the proved programs. Nothing here decides a byte of a recording."""
