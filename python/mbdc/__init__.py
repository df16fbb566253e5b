"""Link frames and telegrams of wired M-Bus (EN 13757-2, EN 13757-3), decoded by libmbdc.

>>> import mbdc
>>> frame, = mbdc.frames(bytes.fromhex("105B015C16"))
>>> frame.kind, frame.control, frame.address
('short', 91, 1)

`frames` takes bytes, `decode` the same as hex digits, `telegram` a telegram's body: they return frozen dataclasses, or raise
`TelegramFault`. `decode_text` returns the lines that the command `mbdc decode` prints for lines of hex digits, `decode_json` those of `mbdc
decode --json`. All may be called from any thread.
"""

from mbdc._frames import Frame, Meter, Record, Telegram, TelegramFault, Value, decode, frames, telegram
from mbdc._library import LibraryFault, decode_json, decode_text

__all__ = ["Frame", "LibraryFault", "Meter", "Record", "Telegram", "TelegramFault", "Value", "decode", "decode_json", "decode_text",
           "frames", "telegram"]
__version__ = "0.3.0"
