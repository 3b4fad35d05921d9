"""The words of a text, as queries in folded mode have them: the longest runs of letters and decimal digits, folded.

A letter is a character that is alphabetic in Unicode (UAX 44), and folding is the full default case folding of the
Unicode standard (section 3.13). Python has both for the characters of its own version of Unicode, but counts no mark of
a vowel as a letter. What the program takes for a letter, or folds, beside what Python 3.11 does stands in two tables
here, which were made by asking the program for each character.
"""
import re

# Characters that are letters or decimal digits beside those that Python knows as such, as ranges.
LETTERS = """
345 363-36f 558 58b-58c 5b0-5bd 5bf 5c1-5c2 5c4-5c5 5c7-5c9 610-61a 64b-657 659-65f 670 6d6-6dc 6e1-6e4
6e7-6e8 6ed 711 730-73f 7a6-7b0 816-817 81b-823 825-827 829-82c 88f 897 8d4-8df 8e3-8e9 8f0-903 93a-93b
93e-94c 94e-94f 955-957 962-963 981-983 9be-9c4 9c7-9c8 9cb-9cc 9d7 9e2-9e3 a01-a03 a3e-a42 a47-a48 a4b-a4c
a51 a70-a71 a75 a81-a83 abe-ac5 ac7-ac9 acb-acc ae2-ae3 afa-afc b01-b03 b3e-b44 b47-b48 b4b-b4c b56-b57
b62-b63 b82 bbe-bc2 bc6-bc8 bca-bcc bd7 c00-c04 c3e-c44 c46-c48 c4a-c4c c55-c56 c5c c62-c63 c81-c83 cbe-cc4
cc6-cc8 cca-ccc cd5-cd6 cdc ce2-ce3 cf3 d00-d03 d3e-d44 d46-d48 d4a-d4c d57 d62-d63 d81-d83 dcf-dd4 dd6
dd8-ddf df2-df3 e31 e34-e3a e4d eb1 eb4-eb9 ebb-ebc ecd f71-f83 f8d-f97 f99-fbc 102b-1036 1038 103b-103e
1056-1059 105e-1060 1062-1064 1067-106d 1071-1074 1082-108d 108f 109a-109d 16ee-16f0 1712-1713 1732-1733
1752-1753 1772-1773 17b6-17c8 1885-1886 18a9 1920-192b 1930-1938 1a17-1a1b 1a55-1a5e 1a61-1a74 1abf-1ac0
1acc-1ace 1b00-1b04 1b35-1b43 1b80-1b82 1ba1-1ba9 1bac-1bad 1be7-1bf1 1c24-1c36 1c89-1c8a 1dd3-1df4 208f
209d-209f 2160-2182 2185-2188 24b6-24e9 2de0-2dff 3007 3021-3029 3038-303a a674-a67b a69e-a69f a6e6-a6ef
a7cb-a7cf a7d2 a7d4 a7da-a7dd a7e2 a7f1 a802 a80b a823-a827 a880-a881 a8b4-a8c3 a8c5 a8ff a926-a92a
a947-a952 a980-a983 a9b4-a9bf a9e5 aa29-aa36 aa43 aa4c-aa4d aa7b-aa7d aab0 aab2-aab4 aab7-aab8 aabe
aaeb-aaef aaf5 ab6c-ab6d abe3-abea fb1e 10140-10174 10341 1034a 10376-1037a 103d1-103d5 105c0-105f3
107bb-107bf 10940-10959 10a01-10a03 10a05-10a06 10a0c-10a0f 10d24-10d27 10d40-10d65 10d69 10d6f-10d85
10eab-10eac 10ec2-10ec7 10ecb-10ecd 10ed9-10eee 10ef3 10ef5 10ef7-10ef8 10efa-10efc 11000-11002 11038-11045
11073-11074 11080-11082 110b0-110b8 110c2 11100-11102 11127-11132 11145-11146 11180-11182 111b3-111bf
111ce-111cf 1122c-11234 11237 1123e-11241 112df-112e8 11300-11303 1133e-11344 11347-11348 1134b-1134c 11357
11362-11363 11380-11389 1138b 1138e 11390-113b5 113b7-113c0 113c2 113c5 113c7-113ca 113cc-113cd 113d1 113d3
11435-11441 11443-11445 114b0-114c1 115af-115b5 115b8-115be 115dc-115dd 11630-1163e 11640 116ab-116b5
116d0-116e3 1171d-1172a 1182c-11838 11930-11935 11937-11938 1193b-1193c 11940 11942 119d1-119d7 119da-119df
119e4 11a01-11a0a 11a35-11a39 11a3b-11a3e 11a51-11a5b 11a8a-11a97 11b0a 11b60-11b67 11bc0-11be0 11bf0-11bf9
11c2f-11c36 11c38-11c3e 11c92-11ca7 11ca9-11cb6 11d31-11d36 11d3a 11d3c-11d3d 11d3f-11d41 11d43 11d47
11d8a-11d8e 11d90-11d91 11d93-11d96 11db0-11ddb 11de0-11de9 11df0-11df1 11ef3-11ef6 11f00-11f10 11f12-11f3a
11f3e-11f40 11f50-11f59 12400-1246f 12475-1247f 12550-12686 1342f 13441-13446 13460-143fa 16100-1612e
16130-16139 16d40-16d6c 16d70-16d79 16ea0-16eb8 16ebb-16ed3 16f4f 16f51-16f87 16f8f-16f92 16ff0-16ff6
187f8-187ff 18cd6-18cda 18cff 18d09-18d20 18d80-18df2 18e00-19191 191a0-191d2 1b123-1b128 1b132 1b155 1b168
1bc9e 1ccf0-1ccf9 1d6a6 1df1f-1df81 1df90-1df96 1dfcd-1e006 1e008-1e018 1e01b-1e021 1e023-1e024 1e026-1e02a
1e030-1e06d 1e08f 1e4d0-1e4eb 1e4f0-1e4f9 1e5d0-1e5ed 1e5f0-1e5fa 1e6c0-1e6de 1e6e0-1e6f5 1e6fe-1e6ff 1e947
1f130-1f149 1f150-1f169 1f170-1f189 2b739-2b73f 2b81e 2cea2-2cead 2ebf0-2ee5d 31350-33479 3d000-3fc3f
"""

# Characters, or ranges of them, and what they, or the first of them, are folded to.
FOLDS = """
1c89:1c8a a7cb:264 a7cc:a7cd a7ce:a7cf a7d2:a7d3 a7d4:a7d5 a7da:a7db a7dc:19b a7dd:277 a7e2:27c
ab6c-ab6d:ab4b 10d50-10d65:10d70 16ea0-16eb8:16ebb 1df40:1df41 1df48:1df49 1df4a:1df4b 1df4d:1df4e 1df51:1df52
1df68:1df69 1df6a:1df6b 1df6c:1df6d 1df6e:1df6f 1df72:1df73 1df74:1df75 1df76:1df77 1df78:1df79 1df7a:1df7b 1df7c:1df7d
1df7e:1df7f 1df95:73,73
"""

ASCII_WORD = re.compile("[a-z0-9]+")


def span(entry):
    """The code points of a range."""
    first, _, last = entry.partition("-")
    return range(int(first, 16), int(last or first, 16) + 1)


def folds():
    """Each character that is folded here, with what it is folded to."""
    for entry in FOLDS.split():
        whole, _, to = entry.partition(":")
        texts = [int(code, 16) for code in to.split(",")]
        for step, code in enumerate(span(whole)):
            yield code, "".join(map(chr, texts)) if len(texts) > 1 else chr(texts[0] + step)


_LETTERS = frozenset(chr(code) for entry in LETTERS.split() for code in span(entry))
_FOLDS = dict(folds())


def is_word(character):
    """Whether a character is a letter or a decimal digit."""
    return character.isalpha() or character.isdecimal() or character in _LETTERS


def folded(word):
    """A word with its case folded."""
    return word.translate(_FOLDS).casefold()


def words_of(text):
    """The folded words of a text, in order."""
    if text.isascii():
        return ASCII_WORD.findall(text.lower())
    spaced = "".join(character if is_word(character) else " " for character in text)
    return [folded(word) for word in spaced.split(" ") if word]
