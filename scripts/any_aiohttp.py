"""What any_service.py is, in aiohttp: `any_aiohttp.py PORT`."""
import asyncio
import hashlib
import sys

from aiohttp import web

FILES = {}


def keep(request, body):
    name = request.raw_path
    if request.method == "PUT":
        fresh, FILES[name] = name not in FILES, body
        return web.Response(status=201 if fresh else 200, body=b"kept", headers={"Location": name})
    if request.method == "DELETE":
        return web.Response(status=404 if FILES.pop(name, None) is None else 204)
    if name not in FILES:
        return web.Response(status=404, text="<p>none</p>", content_type="text/html")
    tag = f'"{hashlib.sha256(FILES[name]).hexdigest()[:8]}"'
    if request.headers.get("if-none-match") == tag:
        return web.Response(status=304, headers={"ETag": tag, "Vary": "Accept, Cookie"})
    return web.Response(body=FILES[name], headers={"ETag": tag})


async def chunked(request, *parts):
    if request.method == "HEAD":  # (a StreamResponse would send the end of the chunks)
        return web.Response()
    answer = web.StreamResponse()
    answer.enable_chunked_encoding()
    await answer.prepare(request)
    for part in parts:
        await answer.write(part)
    return answer


async def answer(request):
    body, parts = await request.read(), request.raw_path.split("?")[0].split("/")
    print(f"{request.method} {request.raw_path}\n", end="", flush=True)
    if "files" in parts:
        return keep(request, body)
    if "hang" in parts:
        await asyncio.sleep(float(parts[-1]))
    if "status" in parts:
        has_body = parts[-1] not in ("204", "205", "304")
        return web.Response(status=int(parts[-1]), body=b'{"a":1}' if has_body else None, headers={"WWW-Authenticate": 'Basic realm="x"'})
    if "cookies" in parts:
        return web.Response(body=b"c", headers=[("Set-Cookie", "a=1; Path=/"), ("X-Odd", "caf\xe9"), ("Set-Cookie", "b=2")])
    if "chunks" in parts:
        return await chunked(request, body, b"end")
    fields = sorted((name.decode().lower(), value.decode("latin-1")) for name, value in request.raw_headers)
    told = {"method": request.method, "target": request.raw_path, "fields": fields, "length": len(body), "sum": hashlib.sha256(body).hexdigest()}
    return web.json_response(told)


app = web.Application()
app.router.add_route("*", "/{any:.*}", answer)
web.run_app(app, host="127.0.0.1", port=int(sys.argv[1]), print=None)
