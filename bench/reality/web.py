"""Clients of a server for the web: requests by aiohttp, retried by this package's adapter."""

from __future__ import annotations

import asyncio

import aiohttp

from hikebox import Policy
from hikebox.adapters.aiohttp import PolicySession

from clients import Population
from stories import LIMITS

#: What a last attempt raises.
FAILURES = (aiohttp.ClientError, asyncio.TimeoutError)


class WebPopulation(Population):
    """Clients who make a connection for each request, and heed `Retry-After`."""

    async def play(self) -> None:
        connector = aiohttp.TCPConnector(limit=0, force_close=True)
        timeout = aiohttp.ClientTimeout(total=self.story.patience)
        async with aiohttp.ClientSession(connector=connector, timeout=timeout) as session:
            self._client = PolicySession(
                session,
                Policy.parse(self.story.policy),
                limit=LIMITS[self.clients.limit](self.clock),
                clock=self.clock,
                before=lambda state: self.count_call(),
            )
            await super().play()

    async def succeeds(self) -> bool:
        try:
            response = await self._client.get(f"http://127.0.0.1:{next(self.ports)}/")
        except FAILURES:
            return False
        return bool(response.status == 200)
