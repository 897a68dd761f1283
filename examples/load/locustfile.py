"""Simulated visitors of a service: nine sign-ins per registration, as fast as the service responds."""

from hidlog.locust import SecurityKeyUser
from locust import constant, runners, task

# On a busy machine, a worker's heartbeats may be late.
runners.HEARTBEAT_LIVENESS = 20


class Visitor(SecurityKeyUser):
    """A visitor without wait time."""

    wait_time = constant(0)

    def on_start(self):
        """Starts with a sign-in, since the first task may replace a returning user by a new user."""
        super().on_start()
        self.sign_in()

    @task(9)
    def signs_in(self):
        """Signs in."""
        self.sign_in()

    @task(1)
    def signs_up(self):
        """Registers a new user."""
        self.sign_up()
