"""An account of Evolution without its windows, by libcamel."""

import time

from trial import PASSWORD, USER, install

VERSION = install('evolution-data-server', 'gir1.2-camel-1.2', 'python3-gi')

import gi  # only now: it may just have been installed

gi.require_version('Camel', '1.2')
from gi.repository import Camel, GLib


class Session(Camel.Session):
    def do_authenticate_sync(self, service, mechanism, cancellable):
        service.set_password(PASSWORD)
        return service.authenticate_sync(mechanism, cancellable) == Camel.AuthenticationResult.ACCEPTED


def turn():
    """libcamel does its work in threads and tells of it in the main loop."""
    if not GLib.MainContext.default().iteration(False):
        time.sleep(0.002)


def rest(seconds):
    """Time for libcamel to come to IDLE."""
    end = time.monotonic() + seconds
    while time.monotonic() < end:
        turn()


class Client:
    """One account of Evolution, in folders of its own."""

    def __init__(self, report, server):
        home = report.scratch('camel')
        self.session = Session(user_data_dir=str(home / 'data'), user_cache_dir=str(home / 'cache'))
        self.session.set_online(True)
        self.store = self.session.add_service('account', 'imapx', Camel.ProviderType.STORE)
        settings = self.store.ref_settings()
        settings.set_host('127.0.0.1')
        settings.set_port(server.port)
        settings.set_user(USER)
        settings.set_security_method(Camel.NetworkSecurityMethod.NONE)
        settings.set_auth_mechanism('PLAIN')
        settings.set_property('use-idle', True)
        settings.set_property('filter-inbox', False)

    def __enter__(self):
        return self

    def __exit__(self, *_):
        self.store.disconnect_sync(True, None)

    def connect(self):
        """Nothing, or libcamel's words why not."""
        try:
            self.store.set_online_sync(True, None)
            self.store.connect_sync(None)
            self.store.get_folder_info_sync(None, Camel.StoreGetFolderInfoFlags.RECURSIVE, None)
            return ''
        except GLib.Error as error:
            return error.message

    def open(self, name):
        folder = self.store.get_folder_sync(name, 0, None)
        folder.refresh_info_sync(None)
        return folder
