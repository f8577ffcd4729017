"""Writes the report of the unit on standard input, as `pvscore check` does.

    PVS_STAGE=8 python3 tests/reference check <UNIT
"""

import os
import sys

sys.dont_write_bytecode = True
sys.path.insert(0, os.path.dirname(os.path.dirname(os.path.abspath(__file__))))
sys.setrecursionlimit(20000)

from reference.report import report_of


def main():
    if sys.argv[1:] != ['check']:
        print('usage: pvscore check')
        return 2
    text = sys.stdin.buffer.read().decode('latin-1')
    report, status = report_of(text, int(os.environ.get('PVS_STAGE', '9').lstrip('R')))
    sys.stdout.buffer.write(report.encode('latin-1'))
    return status


if __name__ == '__main__':
    sys.exit(main())
