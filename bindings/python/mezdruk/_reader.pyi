from typing import Any, Callable, Dict, NoReturn, Optional

def read(
    text: bytes,
    depth: int,
    unique_keys: bool,
    parse_int: Optional[Callable[[str], Any]],
    parse_float: Optional[Callable[[str], Any]],
    object_hook: Optional[Callable[[Dict[str, Any]], Any]],
    fail: Callable[[int, int, int, int, int, int], NoReturn],
    /,
) -> Any: ...
