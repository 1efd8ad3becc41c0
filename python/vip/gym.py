"""Environments for gymnasium: a game as a task for reinforcement learning.

    from vip import Machine
    from vip.gym import Environment
    env = Environment(Machine.game("pong.ch8"), actions=[(), (1,), (4,)],
                      reward=lambda m: m.state.v[0xE], skip=4)
    observation, info = env.reset(seed=1)
    observation, reward, terminated, truncated, info = env.step(2)

Without gymnasium the classes have the same methods. Observations are the 1,024 bytes of what was
shown, or what `observe` returns.
"""
from __future__ import annotations

import importlib
import random
from typing import Any, Callable, Iterable, Sequence

from .machine import Machine, Reason, mask_of


def _module(name: str) -> Any:
    """Return a module, or None if it isn't installed."""
    try:
        return importlib.import_module(name)
    except ImportError:
        return None


_gymnasium = _module("gymnasium")
_numpy = _module("numpy")
_Base: Any = _gymnasium.Env if _gymnasium else object
#: The cell of the interpreter's random byte.
RANDOM = 0x01F1

Reward = Callable[[Machine], float]


def shown(machine: Machine) -> Any:
    """Return what was shown last: an array of 128 rows of 8 bytes, or without numpy bytes."""
    content = bytes(machine.picture_bytes)
    if not _numpy:
        return content
    return _numpy.frombuffer(content, dtype=_numpy.uint8).reshape(128, 8)


class Environment(_Base):  # type: ignore[misc]
    """One machine as an environment.

    `actions` has the keys that each action holds down. `reward` is a function of the machine whose
    rise in a step is the reward of the step. A step has `skip` frames. It ends if the game stops or
    if `done` says so, and is cut off after `steps` steps. A seed chooses the interpreter's random
    byte and how many frames pass before the first step, at most `wait`.
    """

    metadata = {"render_modes": ["ansi"], "render_fps": 60}

    def __init__(
        self,
        machine: Machine,
        actions: Sequence[Iterable[int]],
        reward: Reward,
        *,
        skip: int = 4,
        steps: int | None = None,
        done: Callable[[Machine], bool] = lambda machine: False,
        observe: Callable[[Machine], Any] = shown,
        wait: int = 0,
        render_mode: str | None = None,
    ):
        if skip < 1:
            raise ValueError("skip is at least 1")
        self.machine, self.start = machine, machine.snapshot()
        self.actions = [tuple(action) for action in actions]
        self._masks = [mask_of(action) for action in self.actions]
        self.reward, self.skip, self.steps, self.done, self.observe, self.wait = (
            reward,
            skip,
            steps,
            done,
            observe,
            wait,
        )
        self.render_mode = render_mode
        self._score, self._count, self._dice = 0.0, 0, random.Random()
        if _gymnasium:
            self.action_space = _gymnasium.spaces.Discrete(len(self.actions))
            self.observation_space = _gymnasium.spaces.Box(0, 255, (128, 8), _numpy.uint8)

    def reset(
        self, *, seed: int | None = None, options: dict[str, Any] | None = None
    ) -> tuple[Any, dict[str, Any]]:
        """Go back to the start, and return the observation and a dict with the cycle."""
        if _gymnasium:
            super().reset(seed=seed)
        if seed is not None:
            self._dice = random.Random(seed)
        machine = self.machine
        machine.restore(self.start)
        machine.release()
        # (the interpreter sets its random byte at boot, so the seed comes after a first frame)
        machine.frame()
        machine.memory[RANDOM] = self._dice.randrange(256)
        wait = self._dice.randrange(self.wait + 1)
        if wait:
            machine.frame(wait)
        self._score, self._count = float(self.reward(machine)), 0
        return self.observe(machine), {"cycle": machine.cycle}

    def step(self, action: int) -> tuple[Any, float, bool, bool, dict[str, Any]]:
        """Hold the keys of an action for `skip` frames.

        Return the observation, the reward, whether the task ended, whether it was cut off, and a
        dict with the cycle and, if the game stopped, the name of the stop.
        """
        machine = self.machine
        mask = self._masks[action]
        machine._mask = mask
        reason = machine.frame(self.skip)
        score = float(self.reward(machine))
        gained, self._score = score - self._score, score
        self._count += 1
        info: dict[str, Any] = {"cycle": machine.cycle}
        if reason is Reason.STOP:
            stop = machine.stopped
            info["stop"] = stop.name if stop else ""
        ended = reason.is_end or reason is Reason.LIMIT or self.done(machine)
        cut = self.steps is not None and self._count >= self.steps
        return self.observe(machine), gained, ended, cut and not ended, info

    def render(self) -> str | None:
        """Return what was shown as text."""
        picture = self.machine.picture
        return str(picture) if picture else None

    def close(self) -> None:
        """Do nothing: a machine holds nothing but memory."""


class Vector:
    """A number of environments as one, with the interface of gymnasium's vector environments.

    An environment whose task ended begins anew at the next step, as gymnasium's
    `AutoresetMode.NEXT_STEP` has it: that step has the first observation, and no reward.
    """

    def __init__(self, make: Callable[[], Environment], count: int):
        if count < 1:
            raise ValueError("count is at least 1")
        self.environments = [make() for _ in range(count)]
        self.num_envs = count
        self._ended = [False] * count
        if _gymnasium:
            one = self.environments[0]
            self.single_action_space, self.single_observation_space = (
                one.action_space,
                one.observation_space,
            )
            self.action_space = _gymnasium.vector.utils.batch_space(one.action_space, count)
            self.observation_space = _gymnasium.vector.utils.batch_space(
                one.observation_space, count
            )
            self.metadata = {
                "autoreset_mode": getattr(_gymnasium.vector, "AutoresetMode", None)
                and _gymnasium.vector.AutoresetMode.NEXT_STEP
            }

    def reset(
        self,
        *,
        seed: int | Sequence[int | None] | None = None,
        options: dict[str, Any] | None = None,
    ) -> tuple[Any, dict[str, Any]]:
        """Reset all. One seed gives each environment the next number."""
        seeds = (
            [None if seed is None else seed + at for at in range(self.num_envs)]
            if seed is None or isinstance(seed, int)
            else list(seed)
        )
        found = [
            environment.reset(seed=each) for environment, each in zip(self.environments, seeds)
        ]
        self._ended = [False] * self.num_envs
        return _stack([observation for observation, _ in found]), {
            "cycle": [info["cycle"] for _, info in found]
        }

    def step(self, actions: Sequence[int]) -> tuple[Any, Any, Any, Any, dict[str, Any]]:
        """Make a step of each."""
        rows = []
        for at, (environment, action) in enumerate(zip(self.environments, actions)):
            if self._ended[at]:
                observation, info = environment.reset()
                rows.append((observation, 0.0, False, False, info))
            else:
                rows.append(environment.step(int(action)))
        observations, rewards, ended, cut, infos = zip(*rows)
        self._ended = [bool(a or b) for a, b in zip(ended, cut)]
        return (
            _stack(observations),
            _array(rewards),
            _array(ended),
            _array(cut),
            {"cycle": [info["cycle"] for info in infos]},
        )

    def close(self) -> None:
        """Do nothing."""


def _stack(rows: Sequence[Any]) -> Any:
    return _numpy.stack([_numpy.asarray(row) for row in rows]) if _numpy else list(rows)


def _array(values: Sequence[Any]) -> Any:
    return _numpy.array(values) if _numpy else list(values)
