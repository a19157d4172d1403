"""How `stab link` reads texts of one link job, in the plain form or not.

A text in the plain form is read token by token, and any other by way of a tree of values. A link
job in the plain form has the four members `capacity`, `labels`, `start` and `events`, and no
others. What has to come of each text is found by reader.py."""

import json
import re
from functools import partial

from programs import paragraphs
from tables.reader import EVENTS as WORDS, row
from tables.rows import HERE, Row, WORST_START as PLAIN, WORST_TEXT
from tables.texts import FURTHER, WHOLE, broken, by_value, nested, swapped

# Its parts, and what gives the text with each of some others in place of a part of it.
CAPACITY_AND_LABELS, START, EVENTS = re.fullmatch(
    r'{(.*),("start":{.*}),("events":.*)}', PLAIN).groups()
changed = partial(swapped, PLAIN)

# A start with something in each queue, and room for more: each side expects what comes first.
EACH_HALF_FULL = '{"frames":[[2,99],[3,98]],"acks":[0,5],"send":0,"recv":1}'
# Entries that are no events.
NO_EVENTS = ['"jump"', '"offer"', '["jump",0]', '["offer",4294967296]', "[]", "{}",
             '["lose_ack",65536]', "7", "1.5", "true", "null", '["offer"]']


def refused_too(bad):
    """Texts with this entry among the events, and of them some with something else that is wrong,
    or not, before or after it."""
    text, other = changed('["offer",10]', bad)[0], "{" + ",".join([EVENTS, START, "%s"]) + "}"
    yield text
    for old, news in [
        ('"labels":4', ['"labels":3', '"labels":null', '"labels":1001', '"version":1,"labels":4']),
        ('"capacity":1', ['"capacity":0', '"capacity":"1"']),
        ("[[2,99]]", ["[[2,99],[3,98]]", "[[2]]"]),
        ('["offer",13]', [bad, "1e999", '"\\ud800"', "01", "[1", "1.5", nested(125), nested(126)]),
        ("]}", ["]", '],"events":[]}', '],"events":0}', '],"note":1}', '],"labels":3}', "]}}",
                "]} 7", "],}", ",]}"]),
    ]:
        yield from (new.join(text.rsplit(old, 1)) for new in news)
    for more in (CAPACITY_AND_LABELS, '"capacity":1,"labels":3', '"capacity":1',
                 '"events":["close"]'):
        yield (other % more).replace('["offer",10]', bad)


TEXTS = [
    # the members in another order, white space, and escapes
    PLAIN, "{" + ",".join([EVENTS, START, CAPACITY_AND_LABELS]) + "}",
    " \t\r\n" + PLAIN.replace(",", " ,\n").replace(":", "\t: ") + "\n ",
    # numbers in each place of one
    *(text for old, new in [
        ('"capacity":1', '"capacity":%s'), ('"labels":4', '"labels":%s'), ("[[2,", "[[%s,"),
        (",99]", ",%s]"), ("[0]", "[%s]"), ('"send":0', '"send":%s'), ('"recv":1', '"recv":%s'),
        ('["offer",10]', '["lose_frame",%s]'), ('["offer",11]', '["lose_ack",%s]'),
        ('["offer",12]', '["offer",%s]'),
    ] for number_text in WHOLE for plain in changed(old, new % number_text)
      for text in [plain, by_value(plain)]),
    # labels, each beside the one after it
    *(text for label in (0, 3, 4, 65535)
      for text in changed(START, f'"start":{{"acks":[{label}],"send":{label},"recv":3}}')),
    # each event after an offer, to a link with room and with something in each queue
    *(text for of in [*sorted(WORDS), ["offer", 4294967295], ["lose_frame", 0], ["lose_frame", 1],
                      ["lose_frame", 5], ["lose_ack", 0], ["lose_ack", 1], ["lose_ack", 65535]]
      for plain in [f'{{"capacity":3,"labels":8,"start":{EACH_HALF_FULL},'
                    f'"events":{json.dumps(events)}}}'
                    for events in [[of], [["offer", 10], of]]]
      for text in [plain, by_value(plain)]),
    # further members, and members that come again
    *(text for further in FURTHER for old in ("{" + CAPACITY_AND_LABELS, '"recv":1')
      for text in changed(old, old + ',"note":' + further)),
    # one part of it changed, as links.rows has it
    *(text for it in paragraphs(HERE / "links.rows") for text in changed(it["old"][0], *it["new"])),
    *(text for bad in NO_EVENTS for text in refused_too(bad)),
    # texts that are cut short, go on, or are not UTF-8
    *broken(PLAIN),
]

ROWS = [row(place, words, text)
        for place, text in enumerate(TEXTS) for words in (["link"], ["link", "--trace"])]
# (worked out by hand)
ROWS += [Row("the worst start", ["link", "--trace"], PLAIN, out=WORST_TEXT + "origins: s0 i3\n")]
