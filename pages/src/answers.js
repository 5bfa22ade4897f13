// What a script may ask of the page.
import { thingName } from './say.js';
import { countsOf, placesOf, sizesOf } from './counts.js';

/** `window.timeline` answers what the page has read, drawn and selected. */
export function answerScripts(app, page) {
  window.timeline = {
    open: (name, text) => app.open(name, text),
    opened: () => app.opened ?? null,
    counts: () => countsOf(app.picture),
    places: (entry) => placesOf(app.picture, entry),
    sizes: () => sizesOf(app.picture),
    drawn: () => app.picture.drawn,
    unread: () => app.picture.log?.unread ?? [],
    view: () => ({ ...app.picture.view, axis: app.picture.scale?.axis, scroll: page.scroll.scrollTop, height: app.picture.height, whole: app.picture.scale?.extent() }),
    select: (entry) => app.view.go(entry, null),
    selected: () => ({ entry: app.picture.entry, thing: app.picture.thing === null ? null : thingName(app.picture.thing), lit: [...app.picture.lit].map(thingName).sort() }),
    log: () => app.output ?? app.picture.log?.text ?? '',
    times: () => app.times ?? null,
    where: (kind, key, entry) => app.picture.where(kind, key, entry),
  };
}
