"""Every base rule of the scope document, and those of requests 1 to 3, stated from their definitions.

Nothing here is fast or clever. The words in quotation marks are the documents' own.
"""
