"""Lines that are no commands, and commands whose words are not theirs. The reference does not play
them: their outcomes are written by hand.
"""

NODE = " 0 1 2" + 11 * " 0"


def word_cases(s):
    s.note("blank lines print nothing, and a carriage return belongs to the end of a line")
    for line in ("", "\r", "#", "# stage\r"):
        s.say(line, None)
    s.do("short points 1028", "ok")
    s.say("stage\r", "ok Draft")
    s.say("stage \r", "ok Draft")
    s.note("no command, whatever follows; no text in UTF-8")
    for line in ("nothing", "Stage", "STAGE", "stages", " stage", "0", "load\t00", "\r\r", "nodes 1 2"):
        s.say(line, "unknown command")
    for line in ("\xff", "stage\xc3", "load 00\xff"):
        s.say(line, "no such text")
    s.note("no bytes: capitals, a digit without another, letters that are no digits")
    for word in ("0A", "A0", "0", "010", "0g", "g0", "0x01", "--", "+1"):
        s.say("load " + word, "no such bytes")
        s.say(f"wording {word} 1 0 0", "no such bytes")
    s.note("no answer: of no kind, with no number, with one above 65,535")
    for words in ("0 0 0", "4 0 0", "3", "3 0", "1 x 0", "3 0 -1", "2 65536 0", "x 0 0", "03 0 0"):
        s.say("wording - " + words, "no such answer")
    s.note("no table, no length, no capacity")
    for words in ("answers 5", "nodes 5", "Points 5", " 5"):
        s.say("short " + words, "no such table")
    for words in ("points", "points x", "points -1", "points 65536", "answers x"):
        s.say("short " + words, "no such length")
    for words in ("capacity", "capacity x", "capacity 65536", "blocks", "blocks x", "blocks 4294967296"):
        s.say(words, "no such capacity")
    s.note("none of these has changed the board; it has room for the nodes of every sheet")
    s.say("stage", "ok Draft")
    s.do("alter nodes 8193" + NODE, "ok")
    s.do("alter nodes 8194" + NODE, "no such entry")
    s.note("what stands behind the words of a command is not looked at")
    s.say("stage now", "ok Draft")
    s.say("whole 6 5 12 10 3 3 9 3 x", "ok fit side 1 on yes")
    s.say("make whole 6 5 4", "ok 6 5")
