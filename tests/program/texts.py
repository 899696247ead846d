"""Streams, scripts and items that the program is given, and what it prints of them."""
INVITE = "00 0A 12 A0 00 00 04 00 00 01 FF EF\n"
INVITE_LINE = "accepted: 1 records, 0 commands, 12 bytes\n"
QUERY = "00 11 12 A0 00 00 04 00 00 03 04 F3 00 05 D9 70 00 FF EF\n"
QUERY_LINE = "refused at 11: reason 30 StructuredField\n"
SHORT = "00 0A 12\n"
SHORT_LINE = "truncated at 3\n"
HELLO = "00 15 12 A0 00 00 04 00 00 02 04 40 04 11 00 08 11 01 02 C8 C9 FF EF\n"
HELLO_LINES = """at 22 record flags 0000 opcode 2
  CLEAR-UNIT
  WRITE 00 08
  SBA 1 2
  PUT C8C9
screen
 1  HI
cursor 1 1, unlocked, message off, blink off, fields 0
"""
ANSWER = "00 13 12 A0 00 00 04 00 00 03 06 38 F1 11 06 35 C2 D6 C2 FF EF\n"
ANSWER_LINE = "accepted: 1 records, 0 commands, 21 bytes\n"
ANSWER_LINES = """at 20 record flags 0000 opcode 3
  HEAD 6 56 F1
  AT 6 53
  BYTES C2D6C2
"""
# A field that was read at once: the cursor and no key.
TOLD = "00 12 12 A0 00 00 04 00 00 03 06 37 00 11 06 35 C2 D6 FF EF\n"
TOLD_LINE = "accepted: 1 records, 0 commands, 20 bytes\n"
TOLD_LINES = """at 19 record flags 0000 opcode 3
  IMMEDIATE 6 55
  AT 6 53
  BYTES C2D6
"""
TOLD_MADE = TOLD.replace(" ", "")
# A text of more than 65,536 bytes, and a stream of more.
MANY = INVITE * 6000
MANY_LINE = "accepted: 6000 records, 0 commands, 72000 bytes\n"
BOB = """settle
send 3 0440041100081106341D400020000A04520000
settle
type BOB
key Enter
settle
"""
BOB_LINES = """host ready IBM-3179-2
answer 6 56 F1
  field 6 53 C2D6C2
"""
BOB_SCREEN = """screen
 6                                                     BOB
cursor 6 56, locked, message off, blink off, fields 1
"""
# A first part in white, a hidden one, and one in green.
COLORS = "00 1A 12 A0 00 00 04 00 00 02 04 40 04 11 00 08 11 01 01 22 C8 C9 27 E7 20 C1 FF EF\n"
COLORS_LINES = """at 27 record flags 0000 opcode 2
  CLEAR-UNIT
  WRITE 00 08
  SBA 1 1
  PUT 22C8C927E720C1
screen
 1 %s
cursor 1 1, unlocked, message off, blink off, fields 0
"""
COLORS_PLAIN = COLORS_LINES % " HI   A"
COLORS_COLORED = COLORS_LINES % "\x1b[0;32m \x1b[0;37;1mHI\x1b[0;32m \x1b[0;32m \x1b[0;32m A\x1b[0m"
BOB_COLORED = """screen
 6 \x1b[0;32m                                                    BOB\x1b[0m
cursor 6 56, locked, message off, blink off, fields 1
"""
HELLO_TEXT = """record opcode 2
  CLEAR-UNIT
  WRITE 00 08
  SBA 1 2
  TEXT HI
"""
HELLO_MADE = HELLO.replace(" ", "")
ANSWER_MADE = ANSWER.replace(" ", "")
EMPTY_SCREEN = "screen\ncursor 1 1, locked, message off, blink off, fields 0\n"
