#!/usr/bin/env python3
"""Asks the owner of a key, whichever node that is: `client.py AGENT KEY BODY`, AGENT being where an agent answers HTTP."""
import sys
import urllib.error
import urllib.request
from urllib.parse import quote

agent, key, body = sys.argv[1:]
request = urllib.request.Request(f"http://{agent}/keys/{quote(key, safe='')}", body.encode(), method="POST")
try:
    answer = urllib.request.urlopen(request, timeout=60)
except urllib.error.HTTPError as error:
    answer = error
print(answer.status, answer.headers.get("x-ringpop-owner"), answer.read().decode())
