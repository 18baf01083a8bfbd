"""The built page in Debian's Chromium, without a window: what a person does, and what can be seen of it."""
import base64
import pathlib
import shutil
import tempfile
import time

from selenium import webdriver
from selenium.common.exceptions import StaleElementReferenceException
from selenium.webdriver import ActionChains
from selenium.webdriver.chrome.options import Options
from selenium.webdriver.chrome.service import Service
from selenium.webdriver.common.by import By
from selenium.webdriver.common.keys import Keys

ROOT = pathlib.Path(__file__).resolve().parents[2]
PAGE = ROOT / 'target/web/barleychime.html'
PATIENCE = 60  # seconds for what takes one on an idle machine


class Browser:
    """A browser with a profile of its own, which is gone afterwards."""

    def __init__(self):
        self.folder = pathlib.Path(tempfile.mkdtemp())
        options = Options()
        for flag in ('--headless=new', '--no-sandbox', '--disable-gpu', '--disable-dev-shm-usage', '--window-size=1440,900',
                     f'--user-data-dir={self.folder / "profile"}'):
            options.add_argument(flag)
        options.set_capability('goog:loggingPrefs', {'browser': 'ALL'})
        options.add_experimental_option('prefs', {'download.default_directory': str(self.folder)})
        self.driver = webdriver.Chrome(service=Service(shutil.which('chromedriver')), options=options)
        self.driver.set_script_timeout(PATIENCE)
        self.sized(1440, 900)

    def close(self):
        self.driver.quit()
        shutil.rmtree(self.folder, ignore_errors=True)

    def sized(self, width, height):
        """A window of this size; below 600 px it is a phone."""
        self.driver.execute_cdp_cmd('Emulation.setDeviceMetricsOverride',
                                    {'width': width, 'height': height, 'deviceScaleFactor': 1, 'mobile': width < 600})

    def js(self, script, *arguments):
        return self.driver.execute_script(script, *arguments)

    def value(self, expression, *arguments):
        return self.js(f'return {expression}', *arguments)

    def until(self, expression, what=None):
        """Waits until the expression is true."""
        end = time.time() + PATIENCE
        while time.time() < end:
            if self.value(expression):
                return
            time.sleep(0.03)
        raise TimeoutError(what or expression)

    def open(self, file=PAGE):
        """Opens the page as if for the first time."""
        self.driver.get(pathlib.Path(file).as_uri())
        self.js('localStorage.clear()')
        self.again(file)

    def again(self, file=PAGE):
        """Opens the page anew; what it kept is still there."""
        self.driver.get('about:blank')
        self.driver.get(pathlib.Path(file).as_uri())
        self.until('window.app && app.inside.length > 0', 'the page has started')

    def give(self, *files):
        """Hands files to the page's own field for them: pairs of a name and bytes, or paths."""
        paths = []
        for number, file in enumerate(files):
            if isinstance(file, tuple):
                folder = self.folder / f'given-{time.monotonic_ns()}-{number}'
                folder.mkdir()
                (folder / file[0]).write_bytes(file[1])
                file = folder / file[0]
            paths.append(str(file))
        self.js('app.go("open")')
        self.one('#files').send_keys('\n'.join(paths))

    def one(self, selector):
        return self.driver.find_element(By.CSS_SELECTOR, selector)

    def click(self, selector):
        """Clicks an element, which the page may just have drawn anew."""
        for _ in range(50):
            try:
                return self.one(selector).click()
            except StaleElementReferenceException:
                time.sleep(0.05)
        return self.one(selector).click()

    def text(self, selector):
        return self.value('document.querySelector(arguments[0]).innerText', selector)

    def keys(self, *keys):
        ActionChains(self.driver).send_keys(*keys).perform()

    def held(self, hold, *keys):
        """Keys while others are held down."""
        holds = hold if isinstance(hold, tuple) else (hold,)
        actions = ActionChains(self.driver)
        for key in holds:
            actions.key_down(key)
        actions.send_keys(*keys)
        for key in reversed(holds):
            actions.key_up(key)
        actions.perform()

    def written(self, name):
        """A file that the page has written, as soon as it is there."""
        file, end = self.folder / name, time.time() + PATIENCE
        while time.time() < end and not file.exists():
            time.sleep(0.05)
        return file

    def sideways(self):
        """By how many pixels the page is wider than its window."""
        return self.value('Math.max(document.documentElement.scrollWidth, document.body.scrollWidth) - document.documentElement.clientWidth')

    def errors(self):
        """What the console has since it was asked last: errors, and what the policy forbade."""
        return [line['message'] for line in self.driver.get_log('browser') if line['level'] == 'SEVERE']

    def printed(self):
        """The page on paper, as a PDF."""
        return base64.b64decode(self.driver.execute_cdp_cmd('Page.printToPDF', {'preferCSSPageSize': True})['data'])
