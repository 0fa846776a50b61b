"""The server of tools/page: it runs the calculator on the texts of a folder, and hands its answers to a page in a browser."""
