"""What a club in a work file has more of, or longer, than komd takes (docs/protocol.md): how it is found, told and left out."""

LONGEST_NAME, LONGEST_USER, LONGEST_TEXT, LONGEST_ITEM = 60, 1024, 1048576, 16384
MOST_RECIPIENTS, MOST_COMMENTS, MOST_FOOTNOTES, MOST_MARKS, MOST_MEMBERSHIPS, MOST_ITEMS = 100, 1000, 100, 2000, 2000, 100
LAST_CONFERENCE = 65535
SECRET, READ_PROTECTED = 32, 128
MOST_LINKS = f"CASE footnote WHEN 1 THEN {MOST_FOOTNOTES} ELSE {MOST_COMMENTS} END"


def ranked(table, group, order):
    """A query of the rows of a table with the number of each in its group, from 0 on."""
    return f"SELECT *, row_number() OVER (PARTITION BY {group} ORDER BY {order}) - 1 AS nth FROM {table}"


# Of each: the words for a row that is found; the query that finds the rows; what leaves out as much as is too much.
LIMITS = [
    (f"text {{}} has {{}} bytes, and may have {LONGEST_TEXT}: its end",
     f"SELECT number, length(body) FROM text WHERE length(body) > {LONGEST_TEXT}",
     f"UPDATE text SET body = substr(body, 1, {LONGEST_TEXT}) WHERE length(body) > {LONGEST_TEXT}"),
    (f"the name of conference {{}} has {{}} bytes, and may have {LONGEST_NAME}: its end",
     f"SELECT number, length(name) FROM conference WHERE length(name) > {LONGEST_NAME}",
     f"UPDATE conference SET name = substr(name, 1, {LONGEST_NAME}) WHERE length(name) > {LONGEST_NAME}"),
    ("conference {} has the name of conference {}: it gets another one",
     "SELECT max(number), min(number) FROM conference GROUP BY folded(name) HAVING count(*) > 1",
     "UPDATE conference SET name = told_apart(name, number) WHERE number NOT IN"
     " (SELECT min(number) FROM conference GROUP BY folded(name))"),
    ("conference {} is secret, and not read-protected: it becomes that too",
     f"SELECT number FROM conference WHERE kind & {SECRET} AND NOT kind & {READ_PROTECTED}",
     f"UPDATE conference SET kind = kind | {READ_PROTECTED} WHERE kind & {SECRET}"),
    (f"the user name of person {{}} has {{}} bytes, and may have {LONGEST_USER}: its end",
     f"SELECT number, length(user) FROM person WHERE length(user) > {LONGEST_USER}",
     f"UPDATE person SET user = substr(user, 1, {LONGEST_USER}) WHERE length(user) > {LONGEST_USER}"),
    (f"text {{}} has {{}} recipients, and may have {MOST_RECIPIENTS}: the last ones",
     f"SELECT text, count(*) FROM recipient GROUP BY text HAVING count(*) > {MOST_RECIPIENTS}",
     f"DELETE FROM recipient WHERE place >= {MOST_RECIPIENTS}"),
    ("text {} comments, or is a footnote to, {} texts, and may so many as docs/protocol.md says: the last ones",
     f"SELECT child, count(*) FROM parent GROUP BY child, footnote HAVING count(*) > {MOST_LINKS}",
     f"DELETE FROM parent WHERE (child, footnote, place) IN (SELECT child, footnote, place FROM"
     f" ({ranked('parent', 'child, footnote', 'place')}) WHERE nth >= {MOST_LINKS})"),
    ("text {} has {} comments or footnotes, and may have so many as docs/protocol.md says: the last ones",
     f"SELECT parent, count(*) FROM child GROUP BY parent, footnote HAVING count(*) > {MOST_LINKS}",
     f"DELETE FROM child WHERE (parent, footnote, child) IN (SELECT parent, footnote, child FROM"
     f" ({ranked('child', 'parent, footnote', 'place')}) WHERE nth >= {MOST_LINKS})"),
    (f"person {{}} has {{}} memberships, and may have {MOST_MEMBERSHIPS}: the last ones",
     f"SELECT person, count(*) FROM membership GROUP BY person HAVING count(*) > {MOST_MEMBERSHIPS}",
     f"DELETE FROM membership WHERE place >= {MOST_MEMBERSHIPS}"),
    (f"person {{}} has {{}} marks, and may have {MOST_MARKS}: those on the oldest texts",
     f"SELECT person, count(*) FROM mark GROUP BY person HAVING count(*) > {MOST_MARKS}",
     f"DELETE FROM mark WHERE (person, text) IN (SELECT person, text FROM"
     f" ({ranked('mark', 'person', 'text DESC')}) WHERE nth >= {MOST_MARKS})"),
    (f"an aux-item of {{}} {{}} has {{}} bytes, and may have {LONGEST_ITEM}: all of it",
     f"SELECT CASE on_conference WHEN 1 THEN 'conference' ELSE 'text' END, object, length(content) FROM item"
     f" WHERE length(content) > {LONGEST_ITEM}",
     f"DELETE FROM item WHERE length(content) > {LONGEST_ITEM}"),
    (f"{{}} {{}} has {{}} aux-items, and may have {MOST_ITEMS}: the last ones",
     f"SELECT CASE on_conference WHEN 1 THEN 'conference' ELSE 'text' END, object, count(*) FROM item GROUP BY on_conference, object"
     f" HAVING count(*) > {MOST_ITEMS}",
     f"DELETE FROM item WHERE (on_conference, object, number) IN (SELECT on_conference, object, number FROM"
     f" ({ranked('item', 'on_conference, object', 'number')}) WHERE nth >= {MOST_ITEMS})"),
]


def folded(name):
    """A name as names are compared: small and capital letters of ISO 8859-1 are the same."""
    return name.decode("latin-1").lower().encode("latin-1")


def told_apart(name, number):
    """A name that no other conference has: its number stands at its end."""
    end = b" [%d]" % number
    return name[: LONGEST_NAME - len(end)] + end


def leave_out(work):
    """Leaves out of the tables what is over a limit, and yields a sentence for each."""
    work.rows.create_function("folded", 1, folded, deterministic=True)
    work.rows.create_function("told_apart", 2, told_apart, deterministic=True)
    for words, query, change in LIMITS:
        for row in work.select(query).fetchall():
            yield words.format(*row)
        work.select(change)


# What is told of and has no place in a store: the words, and the query that counts it.
LEFT_BEHIND = [
    ("comments and footnotes to texts that are gone",
     "SELECT count(*) FROM parent WHERE parent NOT IN (SELECT number FROM text)"),
    ("comments and footnotes that one of the two texts tells and the other does not",
     "SELECT count(*) FROM parent LEFT JOIN child USING (child, parent, footnote) WHERE child.place IS NULL"
     " AND parent IN (SELECT number FROM text)"),
    ("marks on texts that are gone", "SELECT count(*) FROM mark WHERE text NOT IN (SELECT number FROM text)"),
    ("memberships that are not in the conference's list of members",
     "SELECT count(*) FROM membership LEFT JOIN member USING (person, conference) WHERE member.place IS NULL"),
    ("members whose membership is not in the person's list",
     "SELECT count(*) FROM member LEFT JOIN membership USING (person, conference) WHERE membership.place IS NULL"),
    ("texts in a person's list that another wrote",
     "SELECT count(*) FROM created JOIN text ON text = number WHERE person != author"),
    ("letterboxes without a person", "SELECT count(*) FROM conference LEFT JOIN person USING (number) WHERE kind & 16 AND login IS NULL"),
]


def left_behind(work):
    """Each kind of what komd has nothing like, and how many."""
    counted = [(what, work.one(query)) for what, query in LEFT_BEHIND]
    return work.select("SELECT what, count FROM told ORDER BY what").fetchall() + [(what, count) for what, count in counted if count]
