"""An auction by HTTP: an interface for programs (`/v1`), and pages to bid and to run a round on. Needs aiohttp.

The site asks a front as any client does. It has no rights of its own: each request is that of the name whose token came with it. The
front has limited the answers to what that name may know.

- `intents`, `documents`, `rendering`, `problems`, `slowing`, `sessions`, `standpoint`: the core, without input or output. Requests become
  lines, and answers documents.
- `html`, `bidding`, `desk`: the words and forms of the pages.
- `resources`: the questions of each path of `/v1`, and the document that the answers make.
- `factors`: codes and certificates, besides tokens.
- `links`, `names`: connections to the front, one for each token. `drafts`, `sending`: commands of pages, each sent once. `following`,
  `keeping`, `results`: changes as events, and the results of closed rounds.
- `walls`, `api`, `pages`, `acting`, `server`: the shells of aiohttp.
"""
