"""The front door of a komd: TLS, browsers, and limits for whoever comes from elsewhere.

    words       the command line
    doors       a listening socket, and who may come in at it
    addresses   where clients come from, and how many of one place there are
    tls         the certificate
    connections a connection, whose bytes are taken as they come
    native      clients that speak Protocol A
    web         the page, and browsers that speak Protocol A in WebSocket frames
    proxies     what a reverse proxy tells of a browser
    session     both ways between a client and the server
    calls       what a client sends, cut at what is to be decided on
    replies     what the server sends, cut at the reply that is waited for
    lines       where lines end
    guessing    wrong passwords make slow
    moving      passwords that come over from an old server
    house       the server, its places, the limits
    told        the log
"""
