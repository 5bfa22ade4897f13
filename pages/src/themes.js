// The theme of a page: as the system has it, light or dark.

const THEMES = ['auto', 'light', 'dark'];

/** The button goes from theme to theme; `changed` hears of it, also where the system's changes. */
export function followThemes(button, changed) {
  let at = 0;
  button.addEventListener('click', () => {
    at = (at + 1) % THEMES.length;
    document.documentElement.dataset.theme = THEMES[at];
    button.textContent = '◐ ' + THEMES[at];
    button.setAttribute('aria-label', 'Theme: ' + THEMES[at]);
    changed();
  });
  matchMedia('(prefers-color-scheme: dark)').addEventListener('change', changed);
}
