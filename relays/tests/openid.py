"""OpenID providers for tests: Debian's glewlwyd, and one that gives false tokens."""

from __future__ import annotations

import json
import re
import sqlite3
import ssl
import subprocess
import threading
import time
from contextlib import closing
from http.server import BaseHTTPRequestHandler, ThreadingHTTPServer
from pathlib import Path
from urllib.parse import parse_qs, unquote, urlencode, urlsplit

import requests
from authlib.jose import JsonWebKey, jwt

from relays.tests.site import wait_for_port
from tests.common.ports import free_port

TABLES = Path("/usr/share/dbconfig-common/data/glewlwyd/install/sqlite3")
MODULES = "/usr/lib/glewlwyd"
SETTINGS = """\
port = {port}
bind_address = "127.0.0.1"
external_url = "{url}/"
login_url = "login.html"
api_prefix = "api"
log_mode = "console"
log_level = "INFO"
cookie_secure = 1
session_key = "GLEWLWYD2_SESSION_ID"
admin_session_authentication = "cookie"
admin_scope = "g_admin"
profile_scope = "g_profile"
user_module_path = "{modules}/user"
user_middleware_module_path = "{modules}/user_middleware"
client_module_path = "{modules}/client"
user_auth_scheme_module_path = "{modules}/scheme"
plugin_module_path = "{modules}/plugin"
use_secure_connection = true
secure_connection_key_file = "{pair}.key"
secure_connection_pem_file = "{pair}.pem"
hash_algorithm = "SHA512"
database = {{ type = "sqlite3"; path = "{folder}/glewlwyd.db"; }};
"""
# The codes of signing on, with PKCE; and the claim of the name, which is the account's.
PLUGIN = {
    "jwt-type": "rsa",
    "jwt-key-size": "256",
    "jwks-show": True,
    "access-token-duration": 3600,
    "refresh-token-duration": 3600,
    "code-duration": 600,
    "refresh-token-rolling": False,
    "auth-type-code-enabled": True,
    "auth-type-token-enabled": False,
    "auth-type-id-token-enabled": True,
    "auth-type-none-enabled": False,
    "auth-type-password-enabled": False,
    "auth-type-client-enabled": False,
    "auth-type-device-enabled": False,
    "auth-type-refresh-enabled": False,
    "claims": [
        {
            "name": "preferred_username",
            "user-property": "username",
            "type": "string",
            "mandatory": True,
        }
    ],
    "name-claim": "no",
    "email-claim": "no",
    "scope-claim": "no",
    "address-claim": {"type": "no"},
    "allowed-scope": ["openid", "profile"],
    "pkce-allowed": True,
    "pkce-method-plain-allowed": False,
    "pkce-required": True,
    "subject-type": "public",
}
SECRET = "known-to-the-page-and-its-provider"
SCOPES = "openid profile"


def browser(authority: str) -> requests.Session:
    """A browser that trusts the site's authority."""
    found = requests.Session()
    # (variables of this machine's may name another authority)
    found.trust_env, found.verify = False, authority
    # A front ends a connection that is kept when that was idle for some seconds by its clock, which
    # tests set forward: the next request could come just then.
    found.headers["Connection"] = "close"
    return found


class Glewlwyd:
    """A provider on loopback, as `localhost`, with a certificate of the site's authority."""

    def __init__(self, folder: Path, pair: str, authority: str) -> None:
        self.folder, self.authority, port = folder, authority, free_port()
        self.issuer = f"https://localhost:{port}"
        folder.mkdir()
        with closing(sqlite3.connect(folder / "glewlwyd.db")) as base:
            base.executescript(TABLES.read_text())
        values = {"port": port, "url": self.issuer, "pair": pair, "folder": folder}
        (folder / "glewlwyd.conf").write_text(SETTINGS.format(modules=MODULES, **values))
        with open(folder / "glewlwyd.log", "wb") as log:
            self.process = subprocess.Popen(
                ["glewlwyd", "-c", str(folder / "glewlwyd.conf")], stdout=log, stderr=log
            )
        self.port, self.admin = port, self.browser()

    def set_up(self) -> None:
        """Sets the provider's codes, scopes and key, as the administrator that its tables have."""
        wait_for_port(self.port)
        self.sign_in(self.admin, "admin", "password")
        self.send("POST", "scope", {"name": "profile", "display_name": "profile"})
        key = JsonWebKey.generate_key("RSA", 2048, is_private=True)
        own = {"iss": self.issuer, "key": key.as_pem(is_private=True).decode()}
        own["cert"] = key.as_pem(is_private=False).decode()
        plugin = {"module": "oidc", "name": "oidc", "display_name": "oidc", "order_rank": 0}
        self.send("POST", "mod/plugin", plugin | {"parameters": PLUGIN | own})

    def browser(self) -> requests.Session:
        return browser(self.authority)

    def send(self, method: str, path: str, data: dict[str, object]) -> None:
        """One word of the administrator's."""
        reply = self.admin.request(method, f"{self.issuer}/api/{path}/", json=data, timeout=60)
        assert reply.status_code == 200, (path, reply.text)

    def sign_in(self, browser: requests.Session, name: str, password: str) -> None:
        data = {"username": name, "password": password}
        reply = browser.post(f"{self.issuer}/api/auth/", json=data, timeout=60)
        assert reply.status_code == 200, (name, reply.text)

    def person(self, name: str) -> None:
        account = {"username": name, "password": f"{name}'s own", "enabled": True}
        self.send("POST", "user", account | {"scope": SCOPES.split()})

    def client(self, name: str, redirect: str) -> None:
        """A site that people may sign on to."""
        client = {"client_id": name, "name": name, "enabled": True, "confidential": True}
        client |= {"client_secret": SECRET, "token_endpoint_auth_method": ["client_secret_basic"]}
        client |= {"redirect_uri": [redirect], "authorization_type": ["code"]}
        self.send("POST", "client", client)

    def arrive(self, person: str, client: str = "desk") -> requests.Session:
        """A browser whose person signed on at the provider, and agreed that the client may know."""
        browser = self.browser()
        self.sign_in(browser, person, f"{person}'s own")
        grant = f"{self.issuer}/api/auth/grant/{client}/"
        assert browser.put(grant, json={"scope": SCOPES}, timeout=60).status_code == 200
        return browser

    def go_on(self, browser: requests.Session, url: str) -> requests.Response:
        """What comes of a way to the provider, once the person said there to go on."""
        shown = browser.get(url, timeout=60)
        found = re.search("callback_url=([^&]+)", shown.url)
        assert found, shown.url
        return browser.get(f"{unquote(found[1])}&g_continue", timeout=60, allow_redirects=False)

    def stop(self) -> None:
        self.process.terminate()
        self.process.wait(timeout=60)


class FalseProvider:
    """A provider whose tokens say what a test wants them to, for whoever comes."""

    def __init__(self, pair: str, issuer: str = "") -> None:
        self.key = JsonWebKey.generate_key("RSA", 2048, {"kid": "one"}, is_private=True)
        self.other_key = JsonWebKey.generate_key("RSA", 2048, {"kid": "one"}, is_private=True)
        self.claims: dict[str, object] = {}
        self.signer, self.nonce = self.key, ""
        self.server = ThreadingHTTPServer(("127.0.0.1", free_port()), self.handler())
        self.url = f"https://localhost:{self.server.server_port}"
        self.issuer = issuer or self.url
        context = ssl.SSLContext(ssl.PROTOCOL_TLS_SERVER)
        context.load_cert_chain(f"{pair}.pem", f"{pair}.key")
        self.server.socket = context.wrap_socket(self.server.socket, server_side=True)
        threading.Thread(target=self.server.serve_forever, daemon=True).start()

    def handler(self) -> type[BaseHTTPRequestHandler]:
        provider = self

        class Handler(BaseHTTPRequestHandler):
            def do_GET(self) -> None:
                path, given = urlsplit(self.path).path, parse_qs(urlsplit(self.path).query)
                if path != "/auth":
                    provider.reply(self, provider.documents()[path])
                    return
                provider.nonce = given["nonce"][0]
                back = urlencode({"code": "any", "state": given["state"][0]})
                self.send_response(302)
                self.send_header("Location", f"{given['redirect_uri'][0]}?{back}")
                self.send_header("Content-Length", "0")
                self.end_headers()

            def do_POST(self) -> None:
                self.rfile.read(int(self.headers["Content-Length"]))
                token = {"access_token": "any", "token_type": "Bearer", "expires_in": 600}
                provider.reply(self, token | {"id_token": provider.token()})

            def log_message(self, *_: object) -> None:
                pass

        return Handler

    def documents(self) -> dict[str, object]:
        ends = {name: f"{self.url}/{name}" for name in ("auth", "token", "jwks")}
        metadata = {
            "issuer": self.issuer,
            "authorization_endpoint": ends["auth"],
            "token_endpoint": ends["token"],
            "jwks_uri": ends["jwks"],
            "response_types_supported": ["code"],
            "token_endpoint_auth_methods_supported": ["client_secret_basic"],
        }
        keys = {"keys": [self.key.as_dict(is_private=False, alg="RS256", use="sig")]}
        return {"/.well-known/openid-configuration": metadata, "/jwks": keys}

    def token(self) -> str:
        """A token for the page that is right, but for what a test changed."""
        at = int(time.time())
        said: dict[str, object] = {"iss": self.issuer, "sub": "7", "aud": "desk", "iat": at}
        said |= {"exp": at + 600, "nonce": self.nonce, "preferred_username": "ann"}
        said = {name: it for name, it in (said | self.claims).items() if it is not None}
        return str(jwt.encode({"alg": "RS256", "kid": "one"}, said, self.signer).decode())

    def reply(self, handler: BaseHTTPRequestHandler, document: object) -> None:
        body = json.dumps(document).encode()
        handler.send_response(200)
        handler.send_header("Content-Type", "application/json")
        handler.send_header("Content-Length", str(len(body)))
        handler.end_headers()
        handler.wfile.write(body)

    def stop(self) -> None:
        self.server.shutdown()
        self.server.server_close()
