"""What a type checker reads of functions that are retried."""

from __future__ import annotations

from typing import TYPE_CHECKING, Any, Callable, Generic, Protocol, TypeVar, overload

__all__ = ["Decorator", "Retried"]

First = TypeVar("First")
Result = TypeVar("Result")
Answer = TypeVar("Answer", covariant=True)

if TYPE_CHECKING:
    from typing_extensions import Concatenate, ParamSpec

    from ..retrying import BaseRetrying

    Parameters = ParamSpec("Parameters")

    class HasRetry:
        """What every retried function has."""

        __name__: str
        #: How it is retried, with its `statistics`.
        retry: BaseRetrying

    class TakesAny(Protocol[Answer]):
        """A function of any number of arguments, of which none is its first parameter."""

        def __call__(self, *args: Any) -> Answer:
            ...

    class Retried(HasRetry, Generic[Parameters, Answer]):
        """A function that is retried at each call: one without parameters, or a method of an object."""

        def retry_with(self, **changes: Any) -> Retried[Parameters, Answer]:
            """The same function with these parameters of `Retrying` in the place of its own."""

        def __call__(self, *args: Parameters.args, **kwargs: Parameters.kwargs) -> Answer:
            """Calls the function until it succeeds."""

    class RetriedFunction(HasRetry, Generic[First, Parameters, Answer]):
        """The same of a function with a first parameter, which is a method where it stands in a class."""

        def retry_with(self, **changes: Any) -> RetriedFunction[First, Parameters, Answer]:
            """The same function with these parameters of `Retrying` in the place of its own."""

        @overload
        def __call__(self, first: First, /, *args: Parameters.args, **kwargs: Parameters.kwargs) -> Answer:
            ...

        @overload
        def __call__(self, **kwargs: Any) -> Answer:
            ...

        def __call__(self, *args: Any, **kwargs: Any) -> Any:  # type: ignore[misc]
            """Calls the function until it succeeds."""

        @overload
        def __get__(self, instance: Any, owner: First) -> Retried[Parameters, Answer]:
            ...

        @overload
        def __get__(self, instance: None, owner: Any) -> RetriedFunction[First, Parameters, Answer]:
            ...

        @overload
        def __get__(self, instance: First, owner: Any) -> Retried[Parameters, Answer]:
            ...

        @overload
        def __get__(self, instance: object, owner: Any) -> RetriedFunction[First, Parameters, Answer]:
            ...

        def __get__(self, instance: Any, owner: Any) -> Any:
            """As a class method, a function, a method, or a static method."""

else:

    class Retried:
        """A function that is retried at each call: it has `retry` and `retry_with(..)`."""


class Decorator(Protocol):
    """What makes a function one that is retried."""

    @overload
    def __call__(self, fn: TakesAny[Result]) -> Retried[..., Result]:
        ...

    @overload
    def __call__(  # type: ignore[misc]
        self, fn: Callable[Concatenate[First, Parameters], Result]
    ) -> RetriedFunction[First, Parameters, Result]:
        ...

    @overload
    def __call__(self, fn: Callable[Parameters, Result]) -> Retried[Parameters, Result]:
        ...

    def __call__(self, fn: Any) -> Any:
        """The function, retried at each call."""
