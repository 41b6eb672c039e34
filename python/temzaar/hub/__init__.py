"""The hub: a service that holds the one console of a controller and serves many who ask (docs/HUB.md).

Modules, lowest first:

    keys       kinds of values in the config file, and the strict reader of a section
    config     the keys of the config file
    moment     times, and their text
    counts     counters, gauges and histograms, and their text for Prometheus
    worker     a thread for work that may hang
    turn       long work has a part of the loop's time, and users a pace
    link       the connection to the controller's console, and the queue of those who ask it
    seencalls  the calls that the hub has seen, in memory of a fixed size
    samples    figures and counts of the last hour and the last day, in memory of a fixed size
    newrecords what is new in the controller's file of records
    recordcounts   counters of the records, the calls that are recorded, and the times that are not
    termwatch  terms that come late, and polls that are missing
    slotuse    slots in use by the records, for times of which there is no picture
    recordreader   looks at the file every few seconds
    model      the state of the site, as the last answers had it
    namebook   the names of the file of names, which is read again when it changes
    eventlog   what happened at the site, in memory of a fixed size
    eventfeed  events of the records and of the audit log
    eventwatch events that the hub sees
    poller     keeps the model up to date
    lines      the lines of operators
    roles      who a peer is, and what it may do
    audit      the audit log
    notes      what the hub writes to standard error, with a limit for each user, and to systemd
    places     who has a place, for lines and for HTTP alike
    session    an operator's connection: lines and their replies
    lineport   the port that operators connect to
    views      the site as JSON and as metrics, and whether all is well
    eventviews the events as JSON, and as rows of the line port
    httpread   requests of HTTP and their queries, read from octets
    web        the HTTP port
    boardviews the site's parts, seen calls and samples as JSON
    pagefiles  the files of the operators' page, which are in page/
    service    all of it together, from start to stop
"""
