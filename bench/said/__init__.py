"""What the documents say of words, texts, feeds and answers, told again, so that what the program
does can be held against it.
"""
