"""Messages of MO files by pokit's proved look-up, for Python's gettext:

    import gettext, pokit_gettext
    _ = gettext.translation("bookshelf", "locale", class_=pokit_gettext.Translations).gettext

A Translations is a gettext.GNUTranslations, and answers as one. A file is checked when it is opened: one that is
damaged raises OSError with its fault, one whose charset Python lacks LookupError, and one with texts that aren't of its
charset UnicodeDecodeError. One whose keys are out of order, as `pybabel compile` writes it of a catalogue with contexts,
is put in order by the library. As in C, ngettext also finds a message without plural forms, and takes the first form
where that of the count is missing.

The library is asked where the msgid and the context are texts and the count is an int from 0 to 2**64 - 1. All else is
answered by GNUTranslations' own methods. These use _catalog, which reads single messages from the file in Python, and
plural, which is Python's function of the header's rule. Django uses both too; _catalog.copy() reads all messages.

POKIT_LIBRARY names the library by its path where the loader doesn't find libpokit.so.0. Without the library the module
raises ImportError.
"""
import array
import bisect
import codecs
import collections.abc
import ctypes
import functools
import gettext
import operator
import os
import struct
import sys


def _load():
    """The library, of which a fault says where it was looked for."""
    path, folders = os.environ.get("POKIT_LIBRARY"), os.environ.get("LD_LIBRARY_PATH")
    try:
        return ctypes.CDLL(path or "libpokit.so.0")
    except OSError as fault:
        where = "POKIT_LIBRARY names it" if path else (
            "it was looked for in the loader's folders%s; POKIT_LIBRARY may name the library by its path"
            % (" and in LD_LIBRARY_PATH, " + folders if folders else ", and LD_LIBRARY_PATH isn't set"))
        raise ImportError("%s (%s)" % (fault, where)) from None


_library = _load()
_size = ctypes.c_size_t
_open = _library.pokit_open
_open.argtypes = [ctypes.c_void_p, ctypes.c_char_p, _size, ctypes.POINTER(ctypes.c_uint32)]
_open.restype = ctypes.c_uint32
_error_text = _library.pokit_error_text
_error_text.argtypes = [ctypes.c_uint32]
_error_text.restype = ctypes.c_char_p
_catalog_size = _library.pokit_catalog_size
_catalog_size.restype = _size
_message_count = _library.pokit_message_count
_message_count.argtypes = [ctypes.c_char_p, _size]
_message_count.restype = ctypes.c_uint32
_sort = _library.pokit_sort
_sort.argtypes = [ctypes.c_char_p, _size, ctypes.c_void_p, _size, ctypes.c_char_p, _size]
_sort.restype = ctypes.c_uint32
# a look-up takes less time than letting go of the interpreter's lock and taking it again
_look_up = ctypes.PyDLL(_library._name, handle=_library._handle).pokit_lookup
_look_up.argtypes = [ctypes.c_void_p, ctypes.c_char_p, _size, ctypes.c_char_p, _size, ctypes.c_char_p, _size,
                     ctypes.c_uint64, ctypes.c_void_p]
_look_up.restype = ctypes.c_char_p

_NOT_SORTED = 7
_PLACE = 32  # bytes of the library's list for a message
_COUNTS = 2 ** 64
_SINGLE_BYTES = ("ascii", "iso8859-", "cp125", "koi8-")  # how the names of such charsets begin
_WITHIN = bytes(range(0x80, 0xc0))  # what stands within a letter of UTF-8
_NONE = gettext.NullTranslations  # whose methods ask the fallback


def _in_order(file):
    """The file of the same messages in rising order of their keys, or None where two keys are equal."""
    count = _message_count(file, len(file))
    places = ctypes.create_string_buffer(_PLACE * count)
    made = ctypes.create_string_buffer(_sort(file, len(file), places, count, None, 0))
    _sort(file, len(file), places, count, made, len(made))
    return made.raw or None


class _Keys(collections.abc.Sequence):
    """The keys of a file that was checked, as bytes: contexts and msgids."""

    def __init__(self, file):
        order = "<" if file[:4] == b"\xde\x12\x04\x95" else ">"
        self.is_swapped = (order == "<") != (sys.byteorder == "little")
        self.file = file
        self.len, self.originals, self.translations = struct.unpack_from(order + "3I", file, 8)
        self.entry = struct.Struct(order + "2I")

    def __len__(self):
        return self.len

    def string(self, table, index):
        len_, at = self.entry.unpack_from(self.file, table + 8 * index)
        return self.file[at:at + len_]

    def starts(self):
        """Where each string begins."""
        words = array.array("I")
        for table in (self.originals, self.translations):
            words.frombytes(self.file[table:table + 8 * self.len])
        if self.is_swapped:
            words.byteswap()
        return words[1::2].tolist()

    def __getitem__(self, index):
        return self.string(self.originals, index).partition(b"\0")[0]


class _Catalog(collections.abc.Mapping):
    """The messages of one MO file: as a mapping those of GNUTranslations._catalog, read when they are asked for. It
    never changes. The library's room has the address of the file's bytes, so a copy opens the file's bytes again."""

    def __init__(self, file, name="", charset="ascii"):
        message = ctypes.c_uint32()
        self._memory = (ctypes.c_uint64 * ((_catalog_size() + 7) // 8))()
        self.room = ctypes.c_void_p(ctypes.addressof(self._memory))
        error = _open(self.room, file, len(file), message)
        in_order = _in_order(file) if error == _NOT_SORTED else None
        if in_order is not None:
            file = in_order
            error = _open(self.room, file, len(file), message)
        if error:
            raise OSError(0, _error_text(error).decode(), name)
        self._file = file
        self._keys = _Keys(file)
        self.charset = charset

    def __reduce__(self):
        return _Catalog, (self._file, "", self.charset)

    def header(self):
        return (_look_up(self.room, None, 0, b"", 0, None, 0, 0, None) or b"").decode("utf-8", "replace")

    def _entry(self, index):
        """A key, and its translation or the list of its forms."""
        keys = self._keys
        key, separator, _ = keys.string(keys.originals, index).partition(b"\0")
        text = keys.string(keys.translations, index)
        if separator:
            return key.decode(self.charset), [form.decode(self.charset) for form in text.split(b"\0")]
        return key.decode(self.charset), text.decode(self.charset)

    def _find(self, key):
        """The translation of a key or the list of its forms, or None."""
        try:
            key = key.encode(self.charset)
        except UnicodeEncodeError:
            return None
        index = bisect.bisect_left(self._keys, key)
        return self._entry(index)[1] if index < len(self._keys) and self._keys[index] == key else None

    def __getitem__(self, key):
        hash(key)
        text = None
        if isinstance(key, str):
            text = self._find(key)
        elif isinstance(key, tuple) and len(key) == 2 and isinstance(key[0], str):
            forms = self._find(key[0])
            text = dict(enumerate(forms)).get(key[1]) if isinstance(forms, list) else None
        if not isinstance(text, str):
            raise KeyError(key)
        return text

    def check_texts(self):
        """Raises what GNUTranslations does where a text isn't of the charset."""
        try:
            is_checked = self._are_decoded_at_once()
        except UnicodeDecodeError:
            is_checked = False
        for index in range(0 if is_checked else len(self._keys)):
            self._entry(index)

    def _are_decoded_at_once(self):
        """Whether it is enough that the bytes from the first string on were decoded: in a charset of single bytes, and
        in UTF-8 where no string begins within a letter. A NUL follows each string."""
        is_utf_8 = self.charset == "utf-8"
        if len(self._keys) == 0 or not is_utf_8 and not self.charset.startswith(_SINGLE_BYTES):
            return False
        starts = self._keys.starts()
        self._file[min(starts):].decode(self.charset)
        if not is_utf_8:
            return True
        first_bytes = bytes(operator.itemgetter(*starts)(self._file))
        return len(first_bytes.translate(None, _WITHIN)) == len(first_bytes)

    def items(self):
        for index in range(len(self._keys)):
            key, text = self._entry(index)
            if isinstance(text, str):
                yield key, text
            else:
                for form, of_form in enumerate(text):
                    yield (key, form), of_form

    def __iter__(self):
        return (key for key, _ in self.items())

    def __len__(self):
        return sum(1 for _ in self.items())

    def __bool__(self):
        return len(self._keys) > 0

    def copy(self):
        """All messages, as a dict."""
        return dict(self.items())


class Translations(gettext.GNUTranslations):
    """The messages of one MO file."""

    def _parse(self, fp):
        self._catalog = _Catalog(fp.read(), getattr(fp, "name", ""))
        self._read_header(self._catalog.header())
        if self._charset:
            self._catalog.charset = codecs.lookup(self._charset).name
        self._catalog.check_texts()

    def _read_header(self, header):
        last = None
        for item in map(str.strip, header.split("\n")):
            if item.startswith("#-#-#-#-#") and item.endswith("#-#-#-#-#"):
                continue
            if ":" in item:
                last, value = item.split(":", 1)
                last, value = last.strip().lower(), value.strip()
                self._info[last] = value
                if last == "content-type" and "charset=" in value:
                    self._charset = value.split("charset=")[1]
            elif item and last:
                self._info[last] += "\n" + item

    @functools.cached_property
    def plural(self):
        """The form of a count: Python's function of the header's rule."""
        forms = self._info.get("plural-forms")
        return (lambda n: int(n != 1)) if forms is None else gettext.c2py(forms.split(";")[1].split("plural=")[1])

    def __getstate__(self):
        return {name: value for name, value in self.__dict__.items() if name != "plural"}

    def _look(self, context, msgid, count):
        """The translation, None where there is none, or NotImplemented where GNUTranslations' own methods answer. A
        count selects the form; without a plural form the text is found by any count."""
        catalog = self._catalog
        try:
            charset = catalog.charset
            key = msgid.encode(charset)
            before = None if context is None else context.encode(charset)
        except AttributeError:
            return NotImplemented
        except UnicodeEncodeError:
            return None
        text = _look_up(catalog.room, before, 0 if before is None else len(before), key, len(key), b"", 0, count, None)
        if text is not None:
            return text.decode(charset)
        return NotImplemented if b"\4" in key or (before is not None and b"\4" in before) else None

    def gettext(self, message):
        text = self._look(None, message, 1)
        if text is None:
            return _NONE.gettext(self, message)
        return super().gettext(message) if text is NotImplemented else text

    def ngettext(self, msgid1, msgid2, n):
        is_count = isinstance(n, int) and 0 <= n < _COUNTS
        text = self._look(None, msgid1, n) if is_count else NotImplemented
        if text is None:
            return _NONE.ngettext(self, msgid1, msgid2, n)
        return super().ngettext(msgid1, msgid2, n) if text is NotImplemented else text

    def pgettext(self, context, message):
        text = self._look(str(context), str(message), 1)
        if text is None:
            return _NONE.pgettext(self, context, message)
        return super().pgettext(context, message) if text is NotImplemented else text

    def npgettext(self, context, msgid1, msgid2, n):
        is_count = isinstance(n, int) and 0 <= n < _COUNTS
        text = self._look(str(context), str(msgid1), n) if is_count else NotImplemented
        if text is None:
            return _NONE.npgettext(self, context, msgid1, msgid2, n)
        return super().npgettext(context, msgid1, msgid2, n) if text is NotImplemented else text
