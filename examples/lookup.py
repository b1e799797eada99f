"""Looks a message up in a catalogue: lookup.py build/libpokit.so FILE.mo MSGID PLURAL COUNT"""
import ctypes as c
import sys

pokit, file = c.CDLL(sys.argv[1]), open(sys.argv[2], "rb").read()
pokit.pokit_catalog_size.restype = c.c_size_t
pokit.pokit_error_text.restype = pokit.pokit_lookup.restype = c.c_char_p
text = [c.c_char_p, c.c_size_t]
pokit.pokit_lookup.argtypes = [c.c_void_p, *text, *text, *text, c.c_uint64, c.c_void_p]

catalog = (c.c_uint64 * (pokit.pokit_catalog_size() // 8))()
fault = pokit.pokit_open(catalog, file, c.c_size_t(len(file)), None)
if fault != 0:
    sys.exit(f"{sys.argv[2]}: {pokit.pokit_error_text(fault).decode()}")
msgid, plural, count = sys.argv[3].encode(), sys.argv[4].encode(), int(sys.argv[5])
translation = pokit.pokit_lookup(catalog, None, 0, msgid, len(msgid), plural, len(plural), count, None)
print((translation or (msgid if count == 1 else plural)).decode())
