"""Pages in the browser that show the answers of a server's queries, and move with them.

    python3 -m djq.web 127.0.0.1:7007                     any query or relation, as a table
    python3 -m djq.web 127.0.0.1:7007 --page FILE.toml    a page of one's own
    python3 -m djq.web 127.0.0.1:7007 --demo              a small factory that moves

A page file names its panels, from left to right and down the page:

    title = "The workshop"

    [[panel]]
    kind = "count"                      # how many answers the query has, and how that went
    title = "Jobs running"
    query = "running"

    [[panel]]
    kind = "newest"                     # the answer that came last
    title = "Newest job"
    query = "board"
    columns = ["machine", "name", "job", "state"]

    [[panel]]
    kind = "chart"                      # the numbers of answers of up to six queries, as lines over time
    title = "Jobs"
    queries = ["running", "waiting"]
    labels = ["running", "waiting"]     # else the queries' names
    minutes = 10                        # that the chart and the count look back; else 5

    [[panel]]
    kind = "chart"                      # what a column reads, as a line for each value of another column
    title = "Heat"
    query = "readings"
    columns = ["machine", "degrees"]
    value = "degrees"
    by = "machine"                      # else one line; the first six values in order have one
    fold = "max"                        # of several values of a line: max, min or sum; else max

    [[panel]]
    kind = "table"                      # the answers, in pages; those that just came are marked
    title = "Alarms"
    query = "alarms"
    columns = ["machine", "name", "gauge"]
    order = ["gauge", "machine"]        # else from the first column on
    descending = true
    rows = 20                           # of a page of it; else 15
    wide = true                         # takes the page's whole width
    alarm = true                        # what comes is marked in red; also of a count and of a newest answer

A count has a `value` and a `fold` too, and shows that number in place of how many answers there are. Columns are named
in the order of the query's head, of a union in that of its members' heads: its name stands where a query's may. A panel
whose query isn't there says so, and begins by itself once it is.

`/live/QUERY` has a query's answers as server-sent events, for pages of one's own: see `djq.web.live`, and
examples/live.html in the repository. With `--page` only the queries of the page and those of `--query` are shown, by
`--all` any. The program changes no rows. It registers a query only where somebody asks for a relation's table.

`page` reads the file. `feeds` follows queries over one connection; `board` holds what a page shows, by the views of
`rows` and `lines`, and `track` what viewers lack of it. `live` is for `/live`. `site` has all of these; `serve`,
`stream` and `render` bring them to browsers; `names` is what is known of the server; `demo` moves a small factory.
"""

from .command import main

__all__ = ["main"]
