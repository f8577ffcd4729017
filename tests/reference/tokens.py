"""Tokens by longest match, and what the grammar sees of each."""

import re
from collections import namedtuple

# `at` is a place: a line and a column of bytes, both counted from 1.
Token = namedtuple('Token', 'sort text start end at')

MAX_TEXT = 2 ** 20

KEYWORDS = """
AND ASSUMING ASSUMPTION AXIOM BEGIN CHALLENGE CLAIM CONJECTURE COROLLARY ELSE ELSIF END ENDASSUMING
ENDIF EXISTS FACT FALSE FORALL FORMULA IF IFF IMPLIES IMPORTING IN LAMBDA LAW LEMMA LET
NONEMPTY_TYPE NOT OBLIGATION OR POSTULATE PROPOSITION SUBLEMMA THEN THEOREM THEORY TRUE TYPE VAR
""".split()

OUTSIDE = """
CASES CODATATYPE COND CONVERSION DATATYPE EXPORTING FROM HAS_TYPE INDUCTIVE JUDGEMENT LIBRARY MACRO
MEASURE RECURSIVE SUBTYPE_OF TABLE WHEN WHERE WITH XOR
""".split()

AXIOMS = {'AXIOM', 'POSTULATE'}
LEMMAS = set("""
CHALLENGE CLAIM CONJECTURE COROLLARY FACT FORMULA LAW LEMMA OBLIGATION PROPOSITION SUBLEMMA THEOREM
""".split())

SYMBOLS = """
( ) [ ] { } , ; : . | = & + - ` -> => <=> /= /\\ \\/
(# #) [# #] (: :) {{ :: := < <= > >= * / ^
""".split()

SPELLINGS = {'&': 'AND', '/\\': 'AND', '\\/': 'OR', '=>': 'IMPLIES', '<=>': 'IFF'}
PLAIN_SYMBOLS = set('( ) [ ] { } , ; : . | = + ` -> /='.split())

LEXEME = re.compile('|'.join([
    r'(?P<blank>[ \t\r\n\f]+|%[^\n]*)',
    r'(?P<variable>[vs]![1-9][0-9]{0,8})',
    r'(?P<word>[A-Za-z][A-Za-z0-9_?]*)',
    r'(?P<number>[0-9]+)',
    r'(?P<quoted>"[^"]*")',
    '(?P<symbol>' + '|'.join(re.escape(s) for s in sorted(SYMBOLS, key=len, reverse=True)) + ')',
]))


def place(text, offset):
    before = text[:offset]
    return before.count('\n') + 1, offset - (before.rfind('\n') + 1) + 1


def sort_of(kind, text):
    """The terminal that the grammar sees of a token."""
    if kind == 'word':
        upper = text.upper()
        if upper in AXIOMS:
            return 'axiom'
        if upper in LEMMAS:
            return 'lemma'
        if upper in KEYWORDS:
            return upper
        if upper in OUTSIDE:
            return 'outside'
        return 'proof' if text == 'proof' else 'id'
    if kind == 'symbol':
        if text in SPELLINGS:
            return SPELLINGS[text]
        return text if text in PLAIN_SYMBOLS else 'outside'
    return kind


def tokens_of(text, start=0, end=None):
    """The tokens of a span of a text, and the fault after them: a place with a code, or None.

    A text is a string of which each character stands for one byte.
    """
    tokens, offset = [], start
    end = len(text) if end is None else end
    while offset < end:
        found = LEXEME.match(text, offset, end)
        if not found:
            code = 'UnclosedQuote' if text[offset] == '"' else 'BadByte'
            return tokens, (place(text, offset), code)
        if found.lastgroup != 'blank':
            sort = sort_of(found.lastgroup, found.group())
            tokens.append(Token(sort, found.group(), offset, found.end(), place(text, offset)))
        offset = found.end()
    return tokens, None


def is_word(token):
    """Whether a token is a word, a keyword or not."""
    return token.text[0].isalpha() and '!' not in token.text
