"""The rules of the pages as a plain model in Python, for `altqwork why`: whole numbers, no library, nothing of it proved.

It was written from docs/ alone, as a second reading of the rules: curves and openings from docs/reference/CURVES.md, HFSC from docs/reference/HFSC.md,
CBQ from docs/reference/CBQ.md, what a queue keeps and drops from docs/reference/QUEUE-RULES.md, the order of events and the link from docs/reference/MANUAL.md,
"What is played". `play.Play` plays arrivals by them, one decision at a time.
"""
