"""Writes the document: the drawing, the texts as they are, what the check said, the style and the script."""

import base64
import gzip
import hashlib
import json
import re
from html import escape
from pathlib import Path

HERE = Path(__file__).resolve().parents[1]


def source_hash(text):
    return "'sha256-" + base64.b64encode(hashlib.sha256(text.encode()).digest()).decode() + "'"


def policy(script, style):
    """No request leaves the page, and no other script and no other style is used."""
    allowed = {"script-src": source_hash(script), "style-src": source_hash(style)}
    refused = {kind: "'none'" for kind in ("default-src", "base-uri", "form-action")}
    return "; ".join(f"{kind} {what}" for kind, what in {**refused, **allowed}.items())


def carried(kind, text):
    """A text as it is, which the page unpacks."""
    packed = base64.b64encode(gzip.compress(text, 6, mtime=0)).decode()
    return f'<script type="text/plain" class="carried" data-kind="{kind}">{packed}</script>'


def document(drawings, script, texts, about):
    style = (HERE / "page.css").read_text(encoding="utf-8")
    title = about["names"].get("report") or about["names"].get("fleet") or about["names"].get("log") or about["names"]["graph"]
    parts = {
        "POLICY": policy(script, style),
        "TITLE": escape(re.sub(r"[^\w .()-]", "\ufffd", title)),  # the script shows the name with its signs
        "STYLE": style,
        "DRAWINGS": drawings,
        "CARRIED": "\n".join(carried(kind, text) for kind, text in texts.items()),
        "ABOUT": json.dumps(about, sort_keys=True).replace("<", "\\u003c"),
        "SCRIPT": script,
    }
    return re.sub(r"@([A-Z]+)@", lambda place: parts[place[1]], (HERE / "page.html").read_text(encoding="utf-8"))
