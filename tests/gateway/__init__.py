"""Tests of the gateway.

- `gateways`: an issuer of many cards, a gateway that is started and ended, and peers
- `flood`: a process that opens many connections and sends nothing, or too little
"""
