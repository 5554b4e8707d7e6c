"""The gateway for a WSGI server such as gunicorn or waitress: `gateway_wsgi:application`. The environment variable
SIDETREE_GATEWAY has the words of `gateway`; --listen, and the address of --metrics, mean nothing here."""
import os
import shlex

from tools import Words
from web_application import OPTIONS, Gateway

application = Gateway(Words(shlex.split(os.environ.get("SIDETREE_GATEWAY", "")), 1, 1, OPTIONS))
