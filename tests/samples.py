"""Short scripts that many cases run, and their replies."""

FIRST = """create s (id int, city text, key (id))
upsert s (1, 'Oslo')
upsert s (2, 'Rome')
upsert s (1, 'Rome')
group s by city show count(*)
"""
FIRST_REPLIES = "ok 0\nok 1\nok 1\nok 1\nok 1\ncity,count(*)\nRome,2\n"

# Its second line isn't a command.
REFUSED = "create s (a int)\ncreat t (a int)\nupsert s (1)\n"
REFUSED_REPLIES = "ok 0\nerr 1 Syntax\nok 1\n"

# A script that nobody runs, to see that it isn't read.
OTHER = "group zz by a show count(*)\n"

FILES = {"first": FIRST, "refused": REFUSED, "other": OTHER, "empty": ""}
