"""Runs a unit's program where systemd is not: as its user and groups, without capabilities, over
files that are read only but for its folders."""

import glob
import os
import shlex
import shutil
import socket
import subprocess

CREDENTIALS = "/run/credentials"
DYNAMIC = "64500"  # an account of systemd's, which is made while its unit runs


def unit(text: str) -> dict[str, list[str]]:
    """The settings of a unit, each with its values in order."""
    found: dict[str, list[str]] = {}
    for line in text.splitlines():
        name, is_setting, value = line.partition("=")
        if is_setting and not line.startswith("#"):
            found.setdefault(name, []).append(value)
    return found


def specified(text: str, instance: str) -> str:
    """A value of a unit with the name of its instance, and of its credentials' folder, put in."""
    return text.replace("%i", instance).replace("%d", CREDENTIALS)


def environment(root: str, settings: dict[str, list[str]], instance: str = "") -> dict[str, str]:
    """What Environment gives, and over it EnvironmentFile."""
    held = {"PATH": "/usr/sbin:/usr/bin:/sbin:/bin", "LC_ALL": "C"}
    for value in settings.get("Environment", []):
        held |= dict(it.split("=", 1) for it in shlex.split(specified(value, instance)))
    for name in settings.get("EnvironmentFile", []):
        path = root + specified(name.lstrip("-"), instance)
        if os.path.exists(path):
            with open(path, encoding="utf-8") as file:
                held |= dict(
                    line.strip().split("=", 1)
                    for line in file
                    if "=" in line and not line.startswith("#")
                )
    return held


def words(settings: dict[str, list[str]], held: dict[str, str], instance: str) -> list[str]:
    """ExecStart, with its variables put in: `${X}` as one word, `$X` as several."""
    made: list[str] = []
    for word in shlex.split(settings["ExecStart"][0].replace("%i", instance)):
        if word.startswith("${"):
            made.append(held.get(word[2:-1], ""))
        elif word.startswith("$"):
            made += held.get(word[1:], "").split()
        else:
            made.append(word)
    return made


def ids(root: str, table: str, name: str) -> tuple[int, int]:
    """The numbers of an account (`passwd`), or twice that of a group (`group`), in the root."""
    with open(os.path.join(root, "etc", table), encoding="utf-8") as file:
        rows = [line.split(":") for line in file]
    number, group = next((int(row[2]), row[3]) for row in rows if row[0] == name)
    return number, int(group) if table == "passwd" else number


def settings_of(root: str, name: str) -> dict[str, list[str]]:
    """The settings of the unit, and of the administrator's files beside it."""
    beside = glob.glob(os.path.join(root, "etc/systemd/system", f"{name}.d", "*.conf"))
    text = ""
    for path in (os.path.join(root, "lib/systemd/system", name), *sorted(beside)):
        with open(path, encoding="utf-8") as file:
            text += file.read()
    return unit(text)


def user_of(settings: dict[str, list[str]]) -> str:
    """The account of a unit; systemd makes a dynamic one, which has a number alone here."""
    return settings.get("User", [DYNAMIC if "DynamicUser" in settings else "root"])[0]


def group_of(settings: dict[str, list[str]]) -> str:
    return settings.get("Group", [user_of(settings)])[-1]


def load_credentials(root: str, settings: dict[str, list[str]], instance: str) -> None:
    """Puts copies of the unit's credentials where only its account reads them."""
    for value in settings.get("LoadCredential", []):
        name, _, source = specified(value, instance).partition(":")
        folder = root + CREDENTIALS
        os.makedirs(folder, 0o755, exist_ok=True)
        shutil.copy(root + source, os.path.join(folder, name))
        os.chown(os.path.join(folder, name), int(user_of(settings)), -1)
        os.chmod(os.path.join(folder, name), 0o400)


def make_runtime(root: str, name: str) -> list[str]:
    """Makes the unit's folders in /run, as its own; those that were not there."""
    settings, made = settings_of(root, name), []
    for each in settings.get("RuntimeDirectory", []):
        path = os.path.join(root, "run", each)
        if not os.path.exists(path):
            os.mkdir(path)
            user, _ = ids(root, "passwd", settings["User"][0])
            os.chown(path, user, ids(root, "group", group_of(settings))[0])
            os.chmod(path, int(settings["RuntimeDirectoryMode"][0], 8))
            made.append(path)
    return made


def remove(made: list[str]) -> None:
    """Takes the folders of /run away, as systemd does when the unit ends."""
    for path in made:
        shutil.rmtree(path)


def read_only(value: str) -> str:
    """What mounts a path of ReadOnlyPaths over itself, where one with a - before it is there."""
    path = value.removeprefix("-")
    mount = f"mount --bind {path} {path} && mount -o remount,bind,ro {path}"
    return f"{{ [ ! -e {path} ] || {{ {mount}; }}; }} && " if path != value else f"{mount} && "


def writable(value: str) -> str:
    """What lets a unit write to a path; one with a - before it may be missing."""
    path = value.removeprefix("-")
    mount = f"mount --rbind {path} {path}"
    return f"{{ [ ! -e {path} ] || {mount}; }} && " if path != value else f"{mount} && "


def start(
    root: str,
    name: str,
    instance: str = "",
    before: list[str] | None = None,
    extra: dict[str, str] | None = None,
    more: tuple[str, ...] = (),
) -> subprocess.Popen[str]:
    """Starts the unit's program in the root: its standard output and error are one stream. It may
    write to `more` besides."""
    settings = settings_of(root, name)
    held = environment(root, settings, instance) | (extra or {})
    load_credentials(root, settings, instance)
    places = [
        *more,
        *(f"/var/lib/{each}" for each in settings.get("StateDirectory", [])),
        *(it.removeprefix("-") for it in settings.get("ReadWritePaths", [])),
    ]
    mounts = "".join(map(writable, places))
    mounts += "".join(read_only(each) for each in settings.get("ReadOnlyPaths", []))
    bare = "mount -o remount,bind,ro / && mount -t tmpfs tmpfs /tmp && cd / && "
    groups = settings.get("SupplementaryGroups", [])
    drop = f"exec setpriv --reuid {user_of(settings)} --regid {group_of(settings)}"
    drop += f" --groups {','.join(groups)}" if groups else " --clear-groups"
    drop += " --no-new-privs --bounding-set=-all --inh-caps=-all"
    given = shlex.join(f"{key}={value}" for key, value in held.items())
    asked = [*(before or []), *words(settings, held, instance)]
    script = f"umask 077 && {mounts}{bare}{drop} env -i {given} {shlex.join(asked)}"
    return subprocess.Popen(
        ["unshare", "--mount", "--propagation", "private", "chroot", root, "sh", "-c", script],
        stdout=subprocess.PIPE,
        stderr=subprocess.STDOUT,
        text=True,
    )


def listen(root: str) -> socket.socket:
    """The socket at which a service says that it is ready: /run/notify of the root."""
    path = os.path.join(root, "run/notify")
    if os.path.exists(path):
        os.unlink(path)
    made = socket.socket(socket.AF_UNIX, socket.SOCK_DGRAM)
    made.bind(path)
    os.chmod(path, 0o777)
    return made
