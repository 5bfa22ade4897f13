#!/usr/bin/env python3
"""Prints the address of pages/timeline.html with a log in it, packed, so that a browser opens both at once.

usage: pages/link.py [LOG] [--entry N] [--axis time|entries]

LOG is standard input where it is left out. A log of some hundred thousand bytes fits the address of a browser; longer ones are picked or dropped.
"""
import argparse
import base64
import gzip
import os
import sys
import urllib.parse

PAGE = os.path.join(os.path.dirname(os.path.abspath(__file__)), 'timeline.html')


def main():
    said = argparse.ArgumentParser(usage=__doc__.split('\n')[2][7:])
    said.add_argument('log', nargs='?')
    said.add_argument('--entry', type=int)
    said.add_argument('--axis', choices=['time', 'entries'])
    words = said.parse_args()
    if words.log:
        with open(words.log, 'rb') as file:
            text = file.read()
    else:
        text = sys.stdin.buffer.read()
    parts = ['name=' + urllib.parse.quote(os.path.basename(words.log or 'standard input'))]
    parts += ['entry=%d' % words.entry] if words.entry else []
    parts += ['axis=' + words.axis] if words.axis else []
    parts += ['gzip=' + base64.urlsafe_b64encode(gzip.compress(text)).decode().rstrip('=')]
    print('file://%s#%s' % (urllib.parse.quote(PAGE), '&'.join(parts)))


if __name__ == '__main__':
    main()
