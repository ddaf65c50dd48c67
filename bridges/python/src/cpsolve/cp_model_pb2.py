"""The messages of `docs/cp_model.proto`, as in a module that protoc generates: `CpModelProto`,
`CpSolverResponse`, the messages in them, and `CpSolverStatus` with its numbers such as `OPTIMAL`.

`cp_model.binpb` is what protoc makes of that file (`bridges/python/descriptor`), so that protoc is
not needed here. The messages have a pool of their own, so that OR-Tools' messages, which have the
same names, can be loaded beside them.
"""

from pathlib import Path
from typing import Any

from google.protobuf import descriptor_pb2, descriptor_pool, message_factory
from google.protobuf.descriptor import Descriptor
from google.protobuf.internal.enum_type_wrapper import EnumTypeWrapper
from google.protobuf.message import Message


def message_class(descriptor: Descriptor) -> type[Message]:
    """The class of the messages of `descriptor`: the one that exists, or else a new one."""
    if hasattr(message_factory, "GetMessageClass"):
        return message_factory.GetMessageClass(descriptor)
    # Before protobuf 4.22 (Debian 12), a factory makes a second class even where one exists.
    try:
        return descriptor._concrete_class
    except (AttributeError, TypeError):
        return message_factory.MessageFactory(descriptor.file.pool).GetPrototype(descriptor)


def _definitions() -> dict[str, Any]:
    """What the file defines, by name: the class of each message, and each enum with its numbers."""
    descriptor_file = Path(__file__).with_name("cp_model.binpb")
    files = descriptor_pb2.FileDescriptorSet.FromString(descriptor_file.read_bytes())
    pool = descriptor_pool.DescriptorPool()
    pool.AddSerializedFile(files.file[0].SerializeToString())
    file = pool.FindFileByName(files.file[0].name)
    defined: dict[str, Any] = {}
    for name, message in file.message_types_by_name.items():
        defined[name] = message_class(message)
    for name, enum in file.enum_types_by_name.items():
        defined[name] = EnumTypeWrapper(enum)
        defined.update(defined[name].items())
    return defined


_DEFINED = _definitions()


def __getattr__(name: str) -> Any:
    """A message class, an enum or one of its numbers. Type checkers know it by this function."""
    try:
        return _DEFINED[name]
    except KeyError:
        raise AttributeError(f"module {__name__!r} has no attribute {name!r}") from None


def __dir__() -> list[str]:
    return sorted(_DEFINED)
