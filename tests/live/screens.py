"""Bodies of records in hex, and the screens that they make."""
# A sign-on, an inquiry and its price, as in examples/.
SIGN_ON = (
    "044004110008110125E289879540D695110611E4A2859940404B404B404B404B404B404B404B404B404B404B404B404B404B"
    "1106341D400020000A110711D781A2A2A696998440404B404B404B404B404B404B404B404B404B404B404B1107341D400027"
    "000A04520000"
)

INQUIRY = (
    "044004110008010700000000000004110123C9A3859440899598A48999A8110302C9A385944095A49482859940404B110313"
    "1D4300200006111702C6F37EC5A789A34040C6F57ED985869985A28804520000"
)
PRICE = "04110008110502D79989838540404B404B404B404B404040F1F24BF5F004520000"

# A field that the format table can't hold: it ends behind the last cell.
PAST_END = "0411000811184F1D4000200010"

SIGN_ON_FIELDS = "field 6 53 10 4000\nfield 7 53 10 4000\n"

SIGN_ON_SCREEN = """screen
 1                                     Sign On
 6                 User  . . . . . . . . . . . . .
 7                 Password  . . . . . . . . . . .
cursor 6 53, unlocked, message off, blink off, fields 2
"""

PRICE_SCREEN = """screen
 1                                   Item inquiry
 3  Item number  .    4711
 5  Price  . . . .   12.50
23  F3=Exit  F5=Refresh
cursor 3 20, unlocked, message off, blink off, fields 1
"""
