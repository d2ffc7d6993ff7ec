#!/usr/bin/env python3
"""delay.py PORT SERVER_PORT SECONDS: passes TCP connections on to a server, both on the loopback, and holds back what comes in either direction
for at least so long, as a network would.

It prints `listening` once it listens, and ends by a signal.
"""
import asyncio
import sys


async def write_later(pieces, writer):
    """Writes each piece when its time has come; an empty one ends the connection."""
    loop = asyncio.get_running_loop()
    while True:
        at, data = await pieces.get()
        await asyncio.sleep(at - loop.time())
        if not data:
            writer.close()
            return
        writer.write(data)
        await writer.drain()


async def pass_on(reader, writer, delay):
    """Passes on what comes in one direction."""
    pieces = asyncio.Queue()
    writing = asyncio.create_task(write_later(pieces, writer))
    while True:
        data = await reader.read(1 << 20)
        pieces.put_nowait((asyncio.get_running_loop().time() + delay, data))
        if not data:
            await writing
            return


async def serve(port, server_port, delay):
    async def connected(reader, writer):
        upwards = await asyncio.open_connection("127.0.0.1", server_port)
        await asyncio.gather(pass_on(reader, upwards[1], delay), pass_on(upwards[0], writer, delay), return_exceptions=True)

    server = await asyncio.start_server(connected, "127.0.0.1", port)
    print("listening", flush=True)
    await server.serve_forever()


def main():
    asyncio.run(serve(int(sys.argv[1]), int(sys.argv[2]), float(sys.argv[3])))


main()
