"""Three web applications of Debian's packages, served on the loopback by PHP's own server: each has its data in a
folder of this run, and nothing of the machine's own installation is changed."""
from __future__ import annotations

import hashlib
import os
import shutil
import socket
import subprocess
import time
from contextlib import contextmanager, suppress
from dataclasses import dataclass
from typing import Any, Callable, Iterator

PATIENCE = 60
USER, PASSWORD = "admin", "a-loopback-password"
Words = list[str]


class NotThere(Exception):
    """Why an application cannot be served, in a sentence."""


@dataclass(frozen=True)
class Application:
    """Its name, its port, a file that its package has, and what makes it ready in a folder: the words for PHP."""

    name: str
    port: int
    file: str
    ready: Callable[[str, int], Words]

    @property
    def origin(self) -> str:
        return f"http://localhost:{self.port}"


def write(path: str, text: str) -> str:
    os.makedirs(os.path.dirname(path), exist_ok=True)
    with open(path, "w", encoding="utf-8") as file:
        file.write(text)
    return path


def copy(folder: str, to: str, without: str) -> None:
    """Copies a package's folder, with what its links lead to, except a file at its top. Links that lead nowhere are
    left out."""
    subprocess.run(["cp", "-rL", folder, to], stderr=subprocess.DEVNULL)
    with suppress(FileNotFoundError):
        os.remove(os.path.join(to, without))


# ---- dokuwiki

DOKUWIKI = "/usr/share/dokuwiki"
DOKUWIKI_DATA = ("attic", "cache", "index", "locks", "log", "media", "media_attic", "media_meta", "meta", "pages",
                 "tmp")
FIRST_PAGE = """====== Start ======
A page with an image {{wiki:dokuwiki-128.png}} and a [[second]] one.

<code php>echo "coloured";</code>
"""


def ready_dokuwiki(room: str, port: int) -> Words:
    conf, data = os.path.join(room, "conf"), os.path.join(room, "data")
    shutil.copytree("/etc/dokuwiki", conf, ignore=shutil.ignore_patterns("*.auth.php", "apache.conf"))
    for name in DOKUWIKI_DATA:
        os.makedirs(os.path.join(data, name))
    shutil.copytree("/var/lib/dokuwiki/data/media/wiki", os.path.join(data, "media", "wiki"))
    write(os.path.join(data, "pages", "start.txt"), FIRST_PAGE)
    write(os.path.join(conf, "local.php"), f"""<?php
$conf['title'] = 'A wiki'; $conf['useacl'] = 1; $conf['superuser'] = '@admin'; $conf['savedir'] = '{data}';
$conf['updatecheck'] = 0; $conf['plugin']['popularity']['autosubmit'] = 0;
""")
    write(os.path.join(conf, "acl.auth.php"), "# <?php exit()?>\n*\t@ALL\t1\n*\t@user\t8\n")
    hashed = hashlib.md5(PASSWORD.encode()).hexdigest()
    write(os.path.join(conf, "users.auth.php"),
          f"# <?php exit()?>\n{USER}:{hashed}:Administrator:admin@wiki.test:admin,user\n")
    before = write(os.path.join(room, "before.php"),
                   f"<?php define('DOKU_CONF', '{conf}/'); define('DOKU_MAIN_CONF', '{conf}/');\n")
    return ["-d", f"auto_prepend_file={before}", "-t", DOKUWIKI]


# ---- mediawiki

MEDIAWIKI = "/usr/share/mediawiki"


def ready_mediawiki(room: str, port: int) -> Words:
    """Installs it with a SQLite database, by its own script."""
    folder = os.path.join(room, "wiki")
    copy(MEDIAWIKI, folder, "LocalSettings.php")
    words = ["php", os.path.join(folder, "maintenance", "install.php"), "--dbtype", "sqlite", "--dbpath", room,
             "--confpath", folder, "--server", f"http://localhost:{port}", "--scriptpath", "", "--pass", PASSWORD,
             "--with-extensions", "A wiki", USER]
    ran = subprocess.run(words, stdout=subprocess.PIPE, stderr=subprocess.STDOUT, text=True)
    if ran.returncode:
        raise NotThere(f"mediawiki's install.php: {ran.stdout.strip().splitlines()[-1]}")
    return ["-t", folder]


# ---- phpmyadmin

PHPMYADMIN = "/usr/share/phpmyadmin"


def ready_phpmyadmin(room: str, port: int) -> Words:
    """Starts a database of this run, which ends with it."""
    data, place = os.path.join(room, "db"), os.path.join(room, "socket")
    as_root = ["--user=root"] if os.getuid() == 0 else []
    quiet: dict[str, Any] = {"stdout": subprocess.DEVNULL, "stderr": subprocess.DEVNULL}
    subprocess.run(["mariadb-install-db", f"--datadir={data}", *as_root, "--skip-test-db",
                    "--auth-root-authentication-method=normal"], check=True, **quiet)
    server = subprocess.Popen(["mariadbd", f"--datadir={data}", *as_root, "--skip-networking", f"--socket={place}",
                               f"--pid-file={room}/pid"], **quiet)
    STARTED.append(server)
    wait_until(lambda: os.path.exists(place), "the database")
    statements = f"CREATE USER '{USER}'@'localhost' IDENTIFIED BY '{PASSWORD}'; GRANT ALL ON *.* TO " \
                 f"'{USER}'@'localhost'; CREATE DATABASE shop; CREATE TABLE shop.goods (name TEXT, price INT); " \
                 "INSERT INTO shop.goods VALUES ('apple', 3), ('pear', 4);"
    subprocess.run(["mariadb", f"--socket={place}", "-u", "root"], input=statements, text=True, check=True, **quiet)
    config = write(os.path.join(room, "config.inc.php"), f"""<?php
$cfg['blowfish_secret'] = '{hashlib.md5(room.encode()).hexdigest()}';
$cfg['Servers'][1] = ['auth_type' => 'cookie', 'host' => 'localhost', 'socket' => '{place}'];
$cfg['TempDir'] = '{room}'; $cfg['VersionCheck'] = false; $cfg['SendErrorReports'] = 'never';
""")
    folder = os.path.join(room, "admin")
    copy(PHPMYADMIN, folder, "config.inc.php")
    vendor = os.path.join(folder, "libraries", "vendor_config.php")
    with open(vendor, encoding="utf-8") as file:
        text = file.read()
    write(vendor, text.replace("'/etc/phpmyadmin/config.inc.php'", f"'{config}'")
          .replace("CONFIG_DIR . 'config.inc.php'", f"'{config}'"))
    return ["-t", folder]


STARTED: list[subprocess.Popen[bytes]] = []
ALL = {one.name: one for one in (
    Application("dokuwiki", 8411, f"{DOKUWIKI}/doku.php", ready_dokuwiki),
    Application("mediawiki", 8412, f"{MEDIAWIKI}/index.php", ready_mediawiki),
    Application("phpmyadmin", 8413, f"{PHPMYADMIN}/index.php", ready_phpmyadmin))}


def wait_until(is_so: Callable[[], bool], what: str) -> None:
    end = time.monotonic() + PATIENCE
    while not is_so():
        if time.monotonic() > end:
            raise NotThere(f"{what} is not up in {PATIENCE} seconds")
        time.sleep(0.1)


def is_open(port: int) -> bool:
    with socket.socket() as one:
        return one.connect_ex(("127.0.0.1", port)) == 0


@contextmanager
def served(one: Application, room: str) -> Iterator[Application]:
    """The application, as long as it is served; raises NotThere."""
    if not os.path.exists(one.file) or not shutil.which("php"):
        raise NotThere(f"{one.name} or php is not installed")
    if is_open(one.port):
        raise NotThere(f"the port {one.port} is in use")
    words = one.ready(room, one.port)
    own = {**os.environ, "PHP_CLI_SERVER_WORKERS": "4"}
    with open(os.path.join(room, "php.log"), "wb") as log:
        server = subprocess.Popen(["php", "-d", "session.save_path=" + room, "-S", f"localhost:{one.port}", *words],
                                  stdout=log, stderr=log, env=own, start_new_session=True)
    try:
        wait_until(lambda: is_open(one.port), one.name)
        yield one
    finally:
        os.killpg(server.pid, 15)
        server.wait()
        while STARTED:
            other = STARTED.pop()
            other.terminate()
            other.wait()
