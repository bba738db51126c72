#!/bin/sh
# What an agent is asked with curl: `requests.sh AGENT`, AGENT being where it answers HTTP.
set -e
agent=http://$1
curl -sf "$agent/healthz"
curl -sf "$agent/owner/order%207?n=2"
curl -sf --data 'hello' "$agent/keys/order%207"
echo
curl -sf "$agent/members"
curl -sf "$agent/digest"
curl -sf "$agent/metrics" | head -3
