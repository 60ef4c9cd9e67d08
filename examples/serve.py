#!/usr/bin/env python3
"""Answers the hits of a site by day as JSON: GET /?site=2&since=20261101.

    serve.py FOLDER [PORT]          with the module lanes; the table is VISITS with the columns DAY, SITE and HITS
"""

import http.server
import json
import sys
import urllib.parse

import lanes

folder, kept = lanes.Folder(sys.argv[1]), {}


def table():
    """What the folder holds. It is read again only if it has other parts."""
    parts = folder.parts()
    if kept.get("parts") != parts:
        kept.update(parts=parts, table=folder.read())
    return kept["table"]


class Handler(http.server.BaseHTTPRequestHandler):
    def do_GET(self):
        asked = dict(urllib.parse.parse_qsl(urllib.parse.urlsplit(self.path).query))
        try:
            site, since = int(asked["site"]), int(asked["since"])
            answer = table().query("SELECT DAY,SUM(HITS) AS HITS FROM VISITS WHERE SITE = ? AND DAY >= ? GROUP BY DAY", [site, since])
            status, body = 200, [dict(zip(answer.headings, row)) for row in answer]
        except (KeyError, ValueError) as fault:
            status, body = 400, {"error": str(fault)}
        self.send_response(status)
        self.send_header("Content-Type", "application/json")
        self.end_headers()
        self.wfile.write(json.dumps(body).encode())


server = http.server.HTTPServer(("127.0.0.1", int(sys.argv[2]) if len(sys.argv) > 2 else 8000), Handler)
print(f"http://127.0.0.1:{server.server_port}/", flush=True)
server.serve_forever()
