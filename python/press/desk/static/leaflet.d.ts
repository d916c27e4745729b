// SPDX-License-Identifier: Apache-2.0
// What the app uses of Leaflet, which comes without types in Debian.
export const CRS: any;
export const Transformation: any;
export function extend(...parts: any[]): any;
export function map(element: HTMLElement, options: any): any;
export function layerGroup(layers?: any[]): any;
export function tileLayer(address: string, options: any): any;
export function svgOverlay(element: any, bounds: number[][], options: any): any;
export function polygon(points: any, options: any): any;
export function polyline(points: number[][], options: any): any;
export function rectangle(bounds: any, options: any): any;
export function marker(at: number[], options: any): any;
export function divIcon(options: any): any;
