// A browser without a window, driven by the WebDriver protocol: Debian's chromium and
// chromedriver, and nothing else.
import { spawn } from 'node:child_process';
import { mkdtempSync, rmSync, writeFileSync } from 'node:fs';
import { tmpdir } from 'node:os';
import { join } from 'node:path';

const ELEMENT = 'element-6066-11e4-a52e-4f735466cecf';

function started(driver) {
    return new Promise((resolve, reject) => {
        let said = '';
        driver.stdout.on('data', part => {
            said += part;
            const port = /started successfully on port (\d+)/.exec(said);
            if (port) resolve(port[1]);
        });
        driver.once('error', reject);
        driver.once('exit', code => reject(new Error(`chromedriver ended with ${code}: ${said}`)));
    });
}

export async function browser() {
    const folder = mkdtempSync(join(tmpdir(), 'page-')), downloads = join(folder, 'downloads');
    const driver = spawn('chromedriver', ['--port=0'], { stdio: ['ignore', 'pipe', 'ignore'] });
    const port = await started(driver);
    const ask = async (method, path, body) => {
        const response = await fetch(`http://127.0.0.1:${port}${path}`,
            { method, body: body === undefined ? undefined : JSON.stringify(body) });
        const { value } = await response.json();
        if (value?.error) throw new Error(`${value.error}: ${value.message.split('\n')[0]}`);
        return value;
    };
    const { sessionId } = await ask('POST', '/session', { capabilities: { alwaysMatch: {
        browserName: 'chrome',
        'goog:loggingPrefs': { browser: 'ALL' },
        'goog:chromeOptions': {
            args: ['--headless=new', '--no-sandbox', '--disable-gpu', '--window-size=1280,1000',
                `--user-data-dir=${join(folder, 'profile')}`],
            prefs: { 'download.default_directory': downloads, 'download.prompt_for_download': false },
        },
    } } });
    const at = path => `/session/${sessionId}${path}`;
    const post = (path, body = {}) => ask('POST', at(path), body);
    const find = async css => (await post('/element', { using: 'css selector', value: css }))[ELEMENT];
    return {
        downloads,
        go: url => post('/url', { url }),
        // Runs a function in the page; it may be asynchronous.
        run: (script, ...args) => post('/execute/sync', { script: `return (${script})(...arguments)`, args }),
        click: async css => post(`/element/${await find(css)}/click`),
        type: async (css, text) => post(`/element/${await find(css)}/value`, { text }),
        // Moves the pointer to the middle of an element.
        hover: async css => {
            const origin = { [ELEMENT]: await find(css) };
            return post('/actions', { actions: [{ type: 'pointer', id: 'mouse', actions: [
                { type: 'pointerMove', duration: 0, origin, x: 0, y: 0 }] }] });
        },
        // Keys to whatever has the focus.
        keys: text => {
            const actions = [...text].flatMap(value => [{ type: 'keyDown', value }, { type: 'keyUp', value }]);
            return post('/actions', { actions: [{ type: 'key', id: 'keyboard', actions }] });
        },
        cdp: (cmd, params = {}) => post('/goog/cdp/execute', { cmd, params }),
        // The names that a screen reader says for all of a role.
        named: async role => {
            const { nodes } = await post('/goog/cdp/execute', { cmd: 'Accessibility.getFullAXTree', params: {} });
            return nodes.filter(node => !node.ignored && node.role?.value === role).map(({ name }) => name.value);
        },
        log: () => post('/se/log', { type: 'browser' }),
        // A picture of the whole page.
        shot: async file => {
            const cdp = (cmd, params = {}) => post('/goog/cdp/execute', { cmd, params });
            const { cssContentSize: { width, height } } = await cdp('Page.getLayoutMetrics');
            const { data } = await cdp('Page.captureScreenshot',
                { captureBeyondViewport: true, clip: { x: 0, y: 0, width, height, scale: 1 } });
            writeFileSync(file, Buffer.from(data, 'base64'));
        },
        async end() {
            await ask('DELETE', at('')).catch(() => {});
            driver.removeAllListeners('exit');
            driver.kill();
            rmSync(folder, { recursive: true, force: true, maxRetries: 5, retryDelay: 200 });
        },
    };
}
