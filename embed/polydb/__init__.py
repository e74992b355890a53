"""polydb in a Python program.

`World`, `Site`, `Outbox` and `run` are the calls of the library (`polydb.engine`). `FileHost` is a site on a folder: it locks it, writes and syncs the site's
journal there, and hands over what the site lets out (`polydb.files`). `polydb.node` has `Node`, which talks with the sites of other processes by asyncio and ZeroMQ; its answers are
`Commit`, `Refusal` and `Item`.
"""

from .answers import *  # noqa: F401,F403
from .answers import __all__ as _answers
from .engine import *  # noqa: F401,F403
from .engine import __all__ as _engine
from .files import *  # noqa: F401,F403
from .files import __all__ as _files

__all__ = [*_answers, *_engine, *_files]
