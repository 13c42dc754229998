"""Lines of `./serve` and of deploy/ that are needed, each taken out of a copy or changed there, and what has to see it."""
import contextlib
import tempfile
import time

from fronts import own, waits, ways
from fronts.work import Stopped, Tally, Work, lacking

# Of ./serve: what stands there, what stands there instead, and the part that fails.
OWN = (
    ("bind=127.0.0.1,", "", own.try_listens),
    ("reuseaddr,", "", own.try_ends),
    ("backlog=1024", "backlog=128", own.try_connections),
    (",nodelay", "", own.try_socket),
    ('limits="keepalive,', 'limits="', own.try_socket),
    (",max-children=$most", "", own.try_connections),
    ("DAVSERVE_CONNECTIONS:-512", "DAVSERVE_CONNECTIONS:-64", own.try_many_at_once),
    ("DAVSERVE_CONNECTIONS:-512", "DAVSERVE_CONNECTIONS:-16", own.try_many_at_once),
    ('setsockopt-bin=1:20:$(time_limit "$silence"),', "", own.try_silence),
    (",setsockopt-int=6:18:$((patience * 1000))", "", own.try_silence),
    ("setsockopt-int=6:18:$((patience * 1000))", 'setsockopt-bin=1:21:$(time_limit "$patience")', own.try_silence),
    ("do kill -CHLD \"$1\"; done", "do :; done", own.try_connections),
    ('pieces=(--bufsize "$piece")', "pieces=()", own.try_options),
    ("-gt 480 ]", "-gt 100000 ]", own.try_roots),
    ("out+='\\\\\\'$", "out+='\\'$", own.try_roots),
    ("private=/$(drawn)", "private=/0123456789abcdef0123456789abcdef", own.try_private),
    ('prefix=${prefix%/}$private\n', 'private=\n', own.try_private),
    ("kill -TERM 0", 'kill -TERM "$1"', own.try_ends),
    (" --line-buffered", "", own.try_said),
    ("-e ' socat\\[[0-9]*\\] [NW] '", "-e '^$'", own.try_said),
    ("-e '^davserve: reading the requests failed$'", "-e '^$'", own.try_silence),
    ("set -m\n", "", own.try_ends),
    ("trap 'exit 143' TERM\n", "", own.try_ends),
    ('elif [ -d "$top/crates" ]', "elif true", own.try_release),
)
# Of deploy/fast.c, by a heading of its own: what is changed there, and the part that fails.
FORKS = "serve --fast"
FAST = (
    ("{htonl(INADDR_LOOPBACK)}", "{0}", own.try_listens),
    ("  set(it, SOL_SOCKET, SO_REUSEADDR, &on, sizeof on);\n", "", own.try_ends),
    ('listen(it, number("DAVSERVE_BACKLOG"))', "listen(it, 128)", own.try_connections),
    ("  set(client, IPPROTO_TCP, TCP_NODELAY, &on, sizeof on);\n", "", own.try_socket),
    ("  set(client, SOL_SOCKET, SO_KEEPALIVE, &on, sizeof on);\n", "", own.try_socket),
    ("  set(client, SOL_SOCKET, SO_RCVTIMEO, &longest, sizeof longest);\n", "", own.try_silence),
    ("  set(client, IPPROTO_TCP, TCP_USER_TIMEOUT, &most, sizeof most);\n", "", own.try_silence),
    ("open < most", "1", own.try_connections),
    ("    while (open && waitpid(-1, NULL, WNOHANG) > 0) open--;\n", "", own.try_fast),
    ("&& waitpid(-1, NULL, WNOHANG) > 0) open--;", "&& waitpid(-1, NULL, WNOHANG) > 0) ;", own.try_connections),
    ("    close(client);\n", "", own.try_answers),
    ("close(at.fd) || ", "", own.try_fast),
)

NGINX, APACHE, CADDY = "deploy/nginx.conf", "deploy/apache.conf", "deploy/Caddyfile"
# Of the other ways: by the heading, a file, what stands there, what stands there instead, and the part that fails.
WAYS = (
    ("inetd", "deploy/inetd.conf", "127.0.0.1:8082", "8082", ways.listening),
    ("inetd", "deploy/inetd.conf", "nowait.60000", "nowait", ways.many),
    ("inetd", "deploy/davserve-inetd", " 2>/dev/null", "", ways.many),
    ("xinetd", "deploy/xinetd.conf", "    bind        = 127.0.0.1\n", "", ways.listening),
    ("xinetd", "deploy/xinetd.conf", "    cps         = 60000 1\n", "", ways.lines),
    ("xinetd", "deploy/xinetd.conf", "davserve-inetd", "davserve", ways.many),
    ("xinetd", "deploy/xinetd.conf", "NODELAY ", "", ways.told),
    ("xinetd", "deploy/xinetd.conf", " KEEPALIVE", "", ways.told),
    ("xinetd", "deploy/xinetd.conf", "instances   = 512", "instances   = 64", ways.crowd),
    *(("systemd", f"deploy/{name}", f"{line}\n", "", ways.lines)
      for name, wanted in ways.LINES["systemd"].items() for line in wanted),
    ("systemd", "deploy/davserve.socket", "ListenStream=127.0.0.1:8083", "ListenStream=8083", ways.lines),
    ("nginx", NGINX, "worker_connections 4096", "worker_connections 128", ways.crowd),
    ("nginx", NGINX, "listen 127.0.0.1:8443", "listen 8443", ways.listening),
    ("nginx", NGINX, "listen 127.0.0.1:8081", "listen 8081", ways.listening),
    ("nginx", NGINX, "    keepalive 300;\n", "", ways.kept),
    ("nginx", NGINX, '  proxy_set_header Connection "";\n', "", ways.kept),
    ("nginx", NGINX, "  limit_conn each 64;\n", "", ways.slow),
    ("nginx", NGINX, "    proxy_buffering on;\n", "", ways.slow),
    ("nginx", NGINX, "  client_max_body_size 1g;\n", "", ways.writes),
    ("nginx", NGINX, "  proxy_set_header Range $few_ranges;\n", "", ways.guards),
    ("nginx", NGINX, "deny all;", "allow all;", ways.guards),
    ("nginx", NGINX, "location ~ /\\.(?!well-known)", "location = /nothing", ways.guards),
    ("nginx", NGINX, '    "~*/(\\.|%2e)" 1;\n', "", ways.guards),
    ("nginx", NGINX, 'add_header Content-Security-Policy "sandbox allow-scripts" always;', "", ways.guards),
    ("nginx", NGINX, '    auth_basic "davserve";\n', "", ways.guards),
    ("nginx", NGINX, "  proxy_read_timeout 1h;\n", "", waits.try_front),
    ("Apache", APACHE, "Listen 127.0.0.1:8444", "Listen 8444", ways.listening),
    ("Apache", APACHE, "Listen 127.0.0.1:8087", "Listen 8087", ways.listening),
    ("Apache", APACHE, "480\n", "60\n", ways.slow),
    ("Apache", APACHE, "  Proxy100Continue Off\n", "", ways.guards),
    ("Apache", APACHE, "  RequestHeader unset Range \"expr=%{HTTP:Range}", "  #", ways.guards),
    ("Apache", APACHE, "Require all denied\n    </LimitExcept>", "Require all granted\n    </LimitExcept>", ways.guards),
    ("Apache", APACHE, "<LocationMatch \"/\\.(?!well-known)\">", "<LocationMatch \"^/nothing$\">", ways.guards),
    ("Apache", APACHE, "=~ m#/(\\.|%2e)#i", "=~ m#^/nothing$#", ways.guards),
    ("Apache", APACHE, '  Header always set Content-Security-Policy "sandbox allow-scripts"\n', "", ways.guards),
    ("Apache", APACHE, "Require valid-user", "Require all granted", ways.guards),
    ("Apache", APACHE, "  RedirectMatch 301 ^/files$ /files/\n", "", ways.guards),
    ("Apache", APACHE, "  ProxyTimeout 3600\n", "", waits.try_front),
    ("Apache", APACHE, "RequestReadTimeout header=20-60,MinRate=500 body=60,MinRate=100\n", "RequestReadTimeout header=0 body=0\n",
     waits.try_front),
    ("Caddy", CADDY, "\tbind 127.0.0.1\n", "", ways.listening),
    ("Caddy", CADDY, "\t\t\tread_header 30s\n", "", waits.try_front),
    ("Caddy", CADDY, "\t\tkeepalive_idle_conns_per_host 300\n", "", ways.kept),
    ("Caddy", CADDY, "\trespond @hides 403\n", "", ways.guards),
    ("Caddy", CADDY, "\trespond @writes 405\n", "", ways.guards),
    ("Caddy", CADDY, "\terror @dots 404\n", "", ways.guards),
    ("Caddy", CADDY, "\trequest_header @many -Range\n", "", ways.guards),
    ("Caddy", CADDY, "\tredir /files /files/ 301\n", "", ways.guards),
)


def failures(heading, edit, part):
    """What fails in a copy with this edit, or in one without."""
    tally = Tally(quiet=True)
    with tempfile.TemporaryDirectory(prefix="davserve-") as folder, contextlib.suppress(Stopped):
        work = Work(folder, edit)
        if heading == "serve":
            own.try_own(work, tally, [part])
        elif heading == FORKS:
            own.try_own_fast(work, tally, [part])
        elif part is ways.lines:
            part(ways.Way(work, heading), tally)
        else:
            found = ways.prepared(work, tally, large=part is ways.writes)
            if part is waits.try_front:
                waits.guarded(work, heading, found[heading], tally)
            else:
                ways.try_way(work, heading, found[heading], tally, [part])
    return tally.failed


def rows(only):
    """Each line with its way, those of one part side by side."""
    all_rows = [("serve", ("serve", old, new), part) for old, new, part in OWN]
    all_rows += [(FORKS, ("deploy/fast.c", old, new), part) for old, new, part in FAST]
    all_rows += [(heading, (file, old, new), part) for heading, file, old, new, part in WAYS]
    chosen = [row for row in all_rows if not only or row[0] == only]
    return sorted(chosen, key=lambda row: (row[0], row[2].__name__))


def try_all(only, tally):
    """Each part has to hold as all stands, and to fail with each of its lines."""
    seen, found = {}, ways.sections()
    for heading, edit, part in rows(only):
        missing = lacking(found[heading.split()[0]])
        if missing:
            tally.leave_out(f"{edit[0]}: {edit[1]!r}, for want of {' '.join(missing)}")
            continue
        if (heading, part) not in seen:
            seen[heading, part] = failures(heading, None, part)
            tally(f"{heading}, {part.__name__}: it holds as all stands", not seen[heading, part], seen[heading, part][:1])
        began = time.monotonic()
        failed = failures(heading, edit, part)
        tally(f"{edit[0]} with {edit[2]!r} for {edit[1]!r}: {part.__name__} fails", failed)
        if failed:
            first = failed[0].split("\n")[0][:160]
            print(f"{edit[0]}: {edit[1].strip()!r} as {edit[2].strip()!r}: {first} ({time.monotonic() - began:.0f} s)", flush=True)
