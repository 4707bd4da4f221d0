"""A front for `ixm serve`: many clients at once, over its one connection to the manager (docs/front.md).

| Module | Is |
|---|---|
| `loop` | the loop, which sends what a turn has gathered |
| `protocol` | the few words and replies of the protocol that the front must tell apart |
| `lines` | bytes cut into lines and into whole replies |
| `request` | a line on its way, and whose it is |
| `who` | who is at the other end |
| `client` | one client's connection: bounded, and one line at a time |
| `link` | the one connection to the manager |
| `asks` | the line in which asks wait for the reservation |
| `watches` | what is watched, so that it can be watched again by the next run, and whose it is |
| `policy` | who may do what |
| `places`, `pace`, `unread` | how many connections and asks there may be, and how much of replies that nobody reads |
| `front` | how they go together |
| `log`, `records`, `gate`, `audit` | who asked what: how it is written, what, what waits for it, and whether it is all |
| `metrics`, `pages` | the counts, and where they can be read |
| `doors`, `service`, `tls` | where others connect, what systemd hands over and is told, clients of other machines |
| `options`, `version`, `main` | the words of the command line, and the program |
"""
