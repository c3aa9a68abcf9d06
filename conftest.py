"""What all tests share: the name of each test that fails is printed as soon as it does."""


class Named:
    """Prints the name of each test that fails, as soon as it does."""

    def __init__(self, reporter):
        self.reporter = reporter

    def pytest_runtest_logreport(self, report):
        if report.failed:
            self.reporter.write_line("FAILED %s" % report.nodeid)


def pytest_sessionstart(session):
    reporter = session.config.pluginmanager.get_plugin("terminalreporter")
    if reporter and not hasattr(session.config, "workerinput"):
        session.config.pluginmanager.register(Named(reporter))
