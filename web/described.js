// What the department says of a project.

import { make } from './dom.js';
import { words } from './words.js';

/**
 * What the department says of a project, as plain text, and a link to more.
 * @param {{ description: string, link: string }} described
 */
export function descriptionOf({ description, link }) {
  const texts = description === '' ? [] : [make('p', { class: 'described', text: description, dir: 'auto' })];
  return [...texts, ...(link === '' ? [] : [make('a', { href: link, target: '_blank', rel: 'noopener noreferrer', text: words.more })])];
}
