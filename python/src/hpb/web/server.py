"""The site as a server: its parts together, its sockets, and its end."""
import asyncio
import dataclasses
import logging
import resource
import ssl
from collections.abc import Callable
from typing import Final, cast

from aiohttp import web

from hpb.client.aio import AsyncClient
from hpb.web.acting import Acting
from hpb.web.api import Api
from hpb.web.config import Config, Wrong
from hpb.web.doors import HEAD_SECONDS, MOST_CONNECTIONS, Doors
from hpb.web.drafts import Drafts
from hpb.web.factors import Codes, Factors
from hpb.web.keeping import Keeper
from hpb.web.links import client_of
from hpb.web.names import Names
from hpb.web.notes import Notes
from hpb.web.pages import Pages
from hpb.web.resources import Site
from hpb.web.results import Results
from hpb.web.sending import Sender
from hpb.web.walls import MOST_BODY, Way, guarded

# How long a call of the front may take, and how long requests may go on at the end, in seconds.
FRONT_SECONDS, END_SECONDS = 20.0, 3.0
# aiohttp has words for each stranger's bytes that are no request. Nobody needs them, and strangers could fill a disk with them.
_SILENT: Final = logging.Logger("hpb.web.silent", logging.CRITICAL + 1)
# Longest first line and longest field of a request, in bytes.
MOST_LINE: Final = 8_190


def connects(config: Config) -> Callable[[str], AsyncClient]:
    """Makes clients of the front, by token."""
    return lambda token: client_of(config.front, token, config.ca, config.plain, FRONT_SECONDS)


def is_secure(config: Config) -> bool:
    """Whether browsers reach the site by TLS."""
    return config.certificate is not None or config.behind_proxy


def factors_of(config: Config) -> Factors:
    """The second factors of the configuration. If they can't be used, `NotUsable` is raised."""
    return Factors(Codes(config.codes) if config.codes else None, config.certificates)


def site_of(config: Config) -> Site:
    """What all requests share."""
    site = Site(config.tree, config.title, None)
    return dataclasses.replace(site, results=Results(config.results, config.tree, site.heading)) if config.results else site


def application_of(config: Config, site: Site, names: Names, sender: Sender, notes: Notes) -> web.Application:
    """The application with all its routes."""
    application = web.Application(middlewares=[guarded(config.names, is_secure(config), notes, site.heading)], client_max_size=MOST_BODY)
    way = Way(is_secure(config), config.behind_proxy)
    factors = factors_of(config)
    Api(site, names, factors, way).add_to(application)
    pages = Pages(site, names, factors, sender, way)
    pages.add_to(application)
    Acting(pages).add_to(application)
    return application


def allow_descriptors() -> None:
    """As many descriptors as connections, and as many more for those that aren't counted yet, as far as the system allows."""
    soft, hard = resource.getrlimit(resource.RLIMIT_NOFILE)
    wanted = 2 * MOST_CONNECTIONS + 256
    if soft != resource.RLIM_INFINITY and soft < wanted:
        resource.setrlimit(resource.RLIMIT_NOFILE, (wanted if hard == resource.RLIM_INFINITY else min(wanted, hard), hard))


async def serve(config: Config, notes: Notes, say: Callable[[str], None], until: asyncio.Event) -> None:
    """Serves until the event. `say` gets the site's address once it can be reached. If it can't be served, `Wrong` is raised."""
    site = site_of(config)
    names, sender = Names(config.tree, connects(config), notes), Sender(Drafts(config.drafts))
    runner = web.AppRunner(
        application_of(config, site, names, sender, notes), handle_signals=False, access_log=None, max_line_size=MOST_LINE, max_field_size=MOST_LINE,
        auto_decompress=False, logger=_SILENT,
    )
    await runner.setup()
    tasks = list[asyncio.Task[None]]()
    server: asyncio.Server | None = None
    try:
        allow_descriptors()
        server, address = await _listening(runner, config)
        say(address)
        if site.results and config.public:
            public = config.public
            tasks.append(asyncio.create_task(Keeper(lambda: names.link_of(public, ""), site.results, notes).run()))
        await until.wait()
    finally:
        if server:
            server.close()
        for task in tasks:
            task.cancel()
        await runner.shutdown()
        assert runner.server
        await runner.server.shutdown(END_SECONDS)
        await runner.cleanup()
        await sender.end()
        await names.end()


async def _listening(runner: web.AppRunner, config: Config) -> tuple[asyncio.Server, str]:
    """Listens, and returns the site's address, too."""
    make = cast(Callable[[], asyncio.Protocol], runner.server)
    doors = Doors(make, MOST_CONNECTIONS) if config.behind_proxy else Doors(make)
    try:
        context = _context(config)
        seconds = HEAD_SECONDS if context else None
        server = await asyncio.get_running_loop().create_server(doors, *config.listen, ssl=context, ssl_handshake_timeout=seconds, backlog=128)
    except (OSError, ssl.SSLError) as fault:
        raise Wrong(f"{config.listen[0]}, port {config.listen[1]}: {fault.strerror or fault}") from None
    host, port = server.sockets[0].getsockname()[:2]
    return server, f"http{'s' if context else ''}://{f'[{host}]' if ':' in host else host}:{port}/"


def _context(config: Config) -> ssl.SSLContext | None:
    if config.certificate is None or config.key is None:
        return None
    context = ssl.create_default_context(ssl.Purpose.CLIENT_AUTH)
    context.minimum_version = ssl.TLSVersion.TLSv1_2
    context.load_cert_chain(config.certificate, config.key)
    if config.clients:
        # A client without a certificate may come, too: only some names need one.
        context.verify_mode = ssl.CERT_OPTIONAL
        context.load_verify_locations(config.clients)
    return context
