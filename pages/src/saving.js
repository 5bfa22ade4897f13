// What leaves the page: files that the browser saves, and links.

/** Lets the browser save a blob. */
export function saved(name, blob) {
  const link = Object.assign(document.createElement('a'), { href: URL.createObjectURL(blob), download: name });
  link.click();
  setTimeout(() => URL.revokeObjectURL(link.href), 1000);
}

/** Puts a fragment into the address and its link into the clipboard, where there is one, and says which. */
export async function copied(fragment) {
  history.replaceState(null, '', fragment);
  try {
    await navigator.clipboard.writeText(location.href);
    return 'The link is copied, and stands in the address.';
  } catch {
    return 'The link stands in the address.';
  }
}
